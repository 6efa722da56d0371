/* The chart: a row for each unit, a bar for each call, and below the bars strips for calls that wait. */

function columnsOf(draw, spans, range, y, fill, site) {
  const wide = 3, count = Math.max(1, Math.floor(draw.room / wide)), each = draw.room / count;
  draw.context.fillStyle = fill;
  shares(spans, count, range, site).forEach((share, i) => {
    const high = BAR * Math.min(1, share);
    if (high > 0.2) draw.context.fillRect(gutter + i * each, y + BAR - high, each + 0.3, high);
  });
}

/* A row whose bars are too thin to see: the share of cycles in which the unit runs, works, and runs calls of the marked site. */
function drawColumns(draw, unit, y, range) {
  draw.context.fillStyle = "#f4f5f7";
  draw.context.fillRect(gutter, y, draw.room, BAR);
  columnsOf(draw, unit, range, y, facts.colours[0][0]);
  columnsOf(draw, unit.works, seen(unit.works), y, state.marked ? "#8fb4d6" : facts.colours[0][1]);
  if (state.marked) columnsOf(draw, unit, range, y, colour(state.marked)[1], state.marked);
}

/* Columns that are the darker the more of their cycles the spans cover. */
function shaded(draw, spans, range, wide, y, high, fill) {
  const count = Math.max(1, Math.floor(draw.room / wide)), each = draw.room / count, { context } = draw;
  context.fillStyle = fill;
  shares(spans, count, range).forEach((share, i) => {
    context.globalAlpha = Math.min(1, share);
    if (share > 0.01) context.fillRect(gutter + i * each, y, each + 0.3, high);
  });
  context.globalAlpha = 1;
}

function drawWorks(draw, unit, i, y, fill) {
  const { context } = draw, begin = Math.max(unit.begin[i], state.from), end = Math.min(unit.end[i], state.to);
  const first = place(unit.works.end, begin), last = place(unit.works.begin, end - 1e-9);
  if ((last - first) * THIN >= (end - begin) * draw.scale) { shaded(draw, unit.works, [first, last], 4, y, BAR, fill); return; }
  context.fillStyle = fill;
  for (let j = first; j < last; j++) {
    const from = Math.max(begin, unit.works.begin[j]);
    context.fillRect(draw.x(from), y, (Math.min(end, unit.works.end[j]) - from) * draw.scale, BAR);
  }
}

function drawBar(draw, unit, i, y) {
  const { context } = draw, site = unit.site[i], [light, dark] = colour(site), isMarked = site === state.marked && site > 0;
  const left = Math.max(draw.x(unit.begin[i]), gutter - 2), right = Math.min(draw.x(unit.end[i]), draw.right + 2), width = Math.max(right - left - 0.5, 0.8);
  context.fillStyle = isMarked ? dark : light;
  context.globalAlpha = isMarked ? 0.7 : 0.45;
  context.fillRect(left, y, width, BAR);
  context.globalAlpha = 1;
  drawWorks(draw, unit, i, y, isMarked ? dark : light);
  if (!isMarked) over(context, site, left, y, width, BAR);
  if (width > 3) {
    context.strokeStyle = isMarked ? INK : dark;
    context.lineWidth = isMarked ? 1.6 : 1;
    context.strokeRect(left + 0.5, y + 0.5, width - 0.5, BAR - 1);
  }
  if (site) labelBar(context, site, left, right, y, isMarked);
}

/* The number of a site in a bar, if there is room for it. */
function labelBar(context, site, left, right, y, isMarked) {
  const label = String(site), width = right - left, size = width > label.length * 7 + 1 ? 11 : 9, room = label.length * size * 0.6 + 4;
  if (width <= label.length * SMALL) return;
  if (patternOf(site) && !isMarked) {
    context.globalAlpha = 0.85;
    context.fillStyle = "white";
    context.fillRect((left + right - room) / 2, y + 4, room, BAR - 8);
    context.globalAlpha = 1;
  }
  context.font = `bold ${size}px monospace`;
  context.textAlign = "center";
  context.fillStyle = isMarked ? "white" : colour(site)[1];
  context.fillText(label, (left + right) / 2, y + BAR / 2 + 4);
  context.font = "11px monospace";
  context.textAlign = "left";
}

function drawWaits(draw, unit, y) {
  const { waits } = unit, [first, last] = seenWaits(waits);
  if ((last - first) * THIN > draw.room) { shaded(draw, waits, [first, last], 3, y + 1, LANE - 1.5, facts.waiting_colour); return; }
  for (let i = first; i < last; i++) if (waits.lane[i] < unit.lanes) drawStrip(draw, unit, i, y + waits.lane[i] * LANE + 1);
}

/* A call that waits: its site's number, and those that it waits for, where there is room. */
function drawStrip(draw, unit, i, y) {
  const { context } = draw, { waits } = unit, site = waits.site[i], [light, dark] = colour(site), kind = facts.waits[waits.kind[i]], high = LANE - 1.5;
  const left = Math.max(draw.x(waits.begin[i]), gutter - 2), right = Math.min(draw.x(waits.end[i]), draw.right + 2), width = Math.max(right - left, 0.8);
  const isChosen = state.wait && state.wait.unit === unit && state.wait.i === i;
  context.fillStyle = site === state.marked ? dark : tiled(context, kind, dark, waits.kind[i] ? light : "white");
  context.fillRect(left, y, width, high);
  context.strokeStyle = isChosen ? INK : dark;
  context.lineWidth = isChosen ? 2 : 0.6;
  context.strokeRect(left, y, width, high);
  labelStrip(context, waits, i, Math.max(left, gutter), right, y);
}

function labelStrip(context, waits, i, left, right, y) {
  const site = waits.site[i], [light, dark] = colour(site), label = String(site), room = label.length * SMALL + 4, high = LANE - 1.5;
  if (right - left < room + 6) return;
  context.fillStyle = light;
  context.fillRect(left, y, room, high);
  over(context, site, left, y, room, high, 0.3);
  context.strokeRect(left, y, room, high);
  context.fillStyle = dark;
  context.font = "bold 9px monospace";
  context.fillText(label, left + 2, y + 7.4);
  context.font = "9px monospace";
  const text = holdersText(waits, i, right - left - room - 8);
  if (text) {
    context.fillStyle = "white";
    context.fillRect(left + room + 3, y + 0.3, text.length * SMALL + 4, high - 0.6);
    context.fillStyle = INK;
    context.fillText(text, left + room + 5, y + 7.4);
  }
  context.font = "11px monospace";
}

/* The sites that a call waits for, as many as there is room for. */
function holdersText(waits, i, room) {
  const sites = Array.from(waits.holder.subarray(i ? waits.last[i - 1] : 0, waits.last[i]), (site) => site || "main");
  for (let shown = sites.length; shown > 0; shown--) {
    const text = `for ${sites.slice(0, shown).join(" ")}${shown < sites.length ? " \u2026" : ""}`;
    if (text.length * SMALL < room) return text;
  }
  return "";
}

const rowHeight = (unit) => BAR + LANE * unit.lanes + GAP;
const chartHeight = () => units.reduce((sum, unit) => sum + rowHeight(unit), TOP + 4);

/* Draws the whole chart, or as much as is seen of it, and gives how many of its bars are marked. */
function drawRows(draw, scrolled) {
  cursorLine(draw);
  axis(draw, true);
  let y = TOP - scrolled, marked = 0;
  for (const unit of units) {
    if (y > -rowHeight(unit) && y < draw.height) marked += drawRow(draw, unit, y);
    unit.y = y;
    y += rowHeight(unit);
  }
  return marked;
}

/* A line along the axis where a wanted call waits for a unit. */
function drawWaiting(draw) {
  const range = seen(waiting), { context } = draw;
  if ((range[1] - range[0]) * THIN > draw.room) { shaded(draw, waiting, range, 3, TOP - 8, 4, facts.waiting_colour); return; }
  context.fillStyle = facts.waiting_colour;
  for (let i = range[0]; i < range[1]; i++) {
    const left = Math.max(draw.x(waiting.begin[i]), gutter), right = Math.min(draw.x(waiting.end[i]), draw.right);
    context.fillRect(left, TOP - 8, Math.max(right - left, 0.8), 4);
  }
}

/* Draws a row, and gives how many of its bars are marked. */
function drawRow(draw, unit, y) {
  const { context } = draw, range = seen(unit), many = (range[1] - range[0]) * THIN > draw.room, waits = unit.waits.begin.length, { hidden } = unit.waits;
  context.fillStyle = INK;
  context.font = "bold 12px monospace";
  context.fillText(clipped(unit.members.join(", "), gutter - 16), 2, y + 10);
  context.font = "10px monospace";
  context.fillStyle = FAINT;
  context.fillText(plural(unit.site.length, "call") + (waits ? `, ${plural(waits, "wait")}` : "") + (hidden ? ` (${grouped(hidden)} not drawn)` : ""), 2, y + 21);
  context.font = "11px monospace";
  within(draw, gutter, () => {
    if (many) drawColumns(draw, unit, y, range);
    else for (let i = range[0]; i < range[1]; i++) drawBar(draw, unit, i, y);
    drawWaits(draw, unit, y + BAR);
  });
  let marked = 0;
  if (state.marked) for (let i = range[0]; i < range[1]; i++) marked += unit.site[i] === state.marked;
  return marked;
}

function drawChart() {
  const box = element("chart-scroll"), draw = penOf(element("chart"), box.clientHeight), { context } = draw;
  context.clearRect(0, 0, draw.width, draw.height);
  element("chart").dataset.marked = drawRows(draw, box.scrollTop);
  if (box.scrollTop) {
    context.clearRect(0, 0, draw.width, TOP - 4);
    axis(draw, true);
  }
  drawWaiting(draw);
}

/* The whole run: how many units run, calls of the marked site, and what of it is seen. */
function drawOverview() {
  const [from, to] = [state.from, state.to];
  [state.from, state.to] = [0, facts.cycles];
  const draw = penOf(element("overview"), 26), { context } = draw, columns = Math.max(1, Math.floor(draw.room / 2)), each = draw.room / columns;
  if (!drawOverview.units || drawOverview.units.length !== columns) {
    drawOverview.units = new Float32Array(columns);
    for (const unit of units) shares(unit, columns, seen(unit)).forEach((share, i) => { drawOverview.units[i] += share / units.length; });
  }
  const heights = (values, fill) => {
    context.fillStyle = fill;
    values.forEach((share, i) => context.fillRect(gutter + i * each, 24 - 22 * Math.min(1, share), each + 0.3, 22 * Math.min(1, share)));
  };
  heights(drawOverview.units, "#d5dbe3");
  shaded(draw, waiting, seen(waiting), 2, 0, 3, facts.waiting_colour);
  if (state.marked) {
    const unit = unitOf(state.marked);
    heights(shares(unit, columns, seen(unit), state.marked), colour(state.marked)[1]);
  }
  const left = draw.x(from), right = draw.x(to);
  context.fillStyle = "#2f6ea522";
  context.fillRect(left, 0, Math.max(right - left, 3), 26);
  context.strokeStyle = "#2f6ea5";
  context.strokeRect(left + 0.5, 0.5, Math.max(right - left, 3) - 1, 25);
  context.fillStyle = FAINT;
  context.fillText("whole run", 2, 17);
  [state.from, state.to] = [from, to];
}
