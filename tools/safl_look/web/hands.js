/* What is seen, what is marked, and what a hand on the keys or the mouse does. */

const LEAST = 4, BEGIN_WITH = 400;
let asked = false;

function draw() {
  asked = false;
  drawOverview();
  drawChart();
  drawWaves();
  const last = Math.min(facts.cycles, Math.ceil(state.to)) - 1;
  element("range").textContent = `${grouped(Math.floor(state.from))} to ${grouped(last)} of 0 to ${grouped(facts.cycles - 1)}`;
  element("at-cursor").textContent = state.cursor === null ? "" : `values in cycle ${grouped(state.cursor)}`;
  element("wait-text").textContent = state.wait ? `${siteName(state.wait.unit.waits.site[state.wait.i])} ${waitText(state.wait.unit.waits, state.wait.i)}` : "";
}

function redraw() {
  if (!asked) requestAnimationFrame(draw);
  asked = true;
}

function look(from, span) {
  const size = Math.min(facts.cycles, Math.max(Math.min(LEAST, facts.cycles), span));
  state.from = Math.min(Math.max(0, from), facts.cycles - size);
  state.to = state.from + size;
  redraw();
}

const span = () => state.to - state.from;
const move = (share) => look(state.from + share * span(), span());

function zoom(factor, about) {
  const middle = about ?? (state.from + state.to) / 2;
  look(middle - (middle - state.from) * factor, span() * factor);
}

function lookAt(cycle) {
  state.cursor = Math.min(facts.cycles - 1, Math.max(0, cycle));
  if (state.cursor < state.from || state.cursor >= state.to) look(state.cursor - span() / 2, span());
  redraw();
}

/* The marked site */

function mark(site) {
  state.marked = site;
  state.wait = null;
  for (const each of document.querySelectorAll("[data-site]")) each.classList.toggle("marked", Number(each.dataset.site) === site);
  element("marked-buttons").hidden = !site;
  element("marked-text").textContent = site ? markedText(site) : "Click a site's number to mark it everywhere.";
  if (site) {
    for (const box of document.querySelectorAll(".scroll")) reveal(box, box.querySelector(".marked"));
    revealRow(unitOf(site));
  }
  redraw();
}

/* Scrolls the chart so that the row of a unit is seen. */
function revealRow(unit) {
  const box = element("chart-scroll");
  if (unit.y < TOP || unit.y + rowHeight(unit) > box.clientHeight) box.scrollTop += unit.y - box.clientHeight / 3;
}

/* Scrolls a panel so that a part of it is seen. */
function reveal(box, part) {
  if (!part) return;
  const outer = box.getBoundingClientRect(), inner = part.getBoundingClientRect();
  if (inner.top < outer.top + 24 || inner.top + 20 > outer.bottom) box.scrollTop += inner.top - outer.top - outer.height / 3;
}

function markedText(site) {
  const { callee, caller, line } = facts.sites[site], unit = unitOf(site), waited = [0, 0];
  const calls = unit.site.reduce((sum, each) => sum + (each === site), 0);
  unit.waits.site.forEach((each, i) => { if (each === site) waited[unit.waits.kind[i]] += unit.waits.end[i] - unit.waits.begin[i]; });
  const told = [`waited ${plural(waited[0], "cycle")} for the arbiter`, `${plural(waited[1], "cycle")} for an argument`];
  return `Site ${site}: ${callee}, called in ${caller} (line ${line}). ${plural(calls, "call")}; ${told.join(", ")}.`;
}

function nextCall(step) {
  if (!state.marked) return;
  const unit = unitOf(state.marked), now = state.cursor ?? (step > 0 ? -1 : facts.cycles);
  let i = step > 0 ? place(unit.begin, now) : place(unit.begin, now - 1) - 1;
  while (i >= 0 && i < unit.site.length && unit.site[i] !== state.marked) i += step;
  if (i >= 0 && i < unit.site.length) lookAt(unit.begin[i]);
}

/* The next wait of a unit's calls after the chosen one or the cursor, or the one before: of the marked site, or of any. */
function waitOf(unit, step) {
  const { waits } = unit, chosen = state.wait, now = chosen ? chosen.unit.waits.begin[chosen.i] : state.cursor ?? (step > 0 ? -1 : facts.cycles);
  let i = step > 0 ? place(waits.begin, now) : place(waits.begin, now - 1) - 1;
  while (i >= 0 && i < waits.begin.length && state.marked && waits.site[i] !== state.marked) i += step;
  return i >= 0 && i < waits.begin.length ? { unit, i } : null;
}

function nextWait(step) {
  const near = (found) => step * found.unit.waits.begin[found.i];
  const found = (state.marked ? [unitOf(state.marked)] : units).map((unit) => waitOf(unit, step)).filter(Boolean);
  if (found.length) chooseWait(found.reduce((one, other) => near(other) < near(one) ? other : one));
}

/* Shows a wait, and what it is for. */
function chooseWait(wait) {
  const { begin, end } = wait.unit.waits;
  state.wait = wait;
  if (end[wait.i] - begin[wait.i] > span()) look(begin[wait.i] - 0.05 * span(), (end[wait.i] - begin[wait.i]) * 1.1);
  lookAt(begin[wait.i]);
  revealRow(wait.unit);
}

/* The wait of a site that begins in this cycle. */
function jumpTo(site, cycle) {
  const unit = unitOf(site), { waits } = unit;
  mark(site);
  for (let i = place(waits.begin, cycle - 1); waits.begin[i] === cycle; i++) if (waits.site[i] === site) chooseWait({ unit, i });
  element("run").scrollIntoView({ block: "nearest" });
}

/* What is under the pointer */

const cycleAt = (event) => {
  const box = event.target.getBoundingClientRect(), room = box.width - gutter - RIGHT;
  return state.from + (event.clientX - box.left - gutter) / room * span();
};

function under(event) {
  const y = event.clientY - element("chart").getBoundingClientRect().top, cycle = cycleAt(event);
  const unit = units.find((each) => y >= each.y && y < each.y + rowHeight(each) - GAP / 2);
  if (!unit || cycle >= state.to) return null;
  if (cycle < state.from) return { unit };
  if (y < unit.y + BAR) {
    const i = place(unit.begin, cycle) - 1;
    return i >= 0 && cycle < unit.end[i] ? { unit, call: i, site: unit.site[i], cycle: Math.floor(cycle) } : null;
  }
  const lane = Math.floor((y - unit.y - BAR) / LANE), [first, last] = seenWaits(unit.waits);
  for (let i = first; i < last; i++) {
    if (unit.waits.lane[i] === lane && unit.waits.begin[i] <= cycle && cycle < unit.waits.end[i]) return { unit, wait: i, site: unit.waits.site[i], cycle: Math.floor(cycle) };
  }
  return null;
}

function argumentsText(unit, i) {
  const callee = unit.site[i] ? facts.sites[unit.site[i]].callee : "main", prefix = `arg$${callee}$`, found = [];
  const put = (text, name, cycle) => {
    const value = valueAt(name, cycle);
    if (value === null) return;
    const [first, ...rest] = formsOf(name, waves.get(name).width, value), forms = rest.filter((line) => !line.startsWith(" "));
    found.push(`${text} ${[first, ...forms].join(" = ")}`, ...rest.filter((line) => line.startsWith(" ")));
  };
  for (const name of waves.keys()) if (name.startsWith(prefix)) put(`${name.slice(prefix.length)} =`, name, unit.begin[i]);
  if (unit.isOver[i]) put("value", `res$${unit.name}`, unit.end[i]);
  return found;
}

/* The sites of a unit's body whose values it awaits in a cycle: calls that run, and calls that wait for an arbiter. */
function awaitedBy(unit, cycle) {
  const found = [], isOwn = (site) => site && unit.members.includes(facts.sites[site].caller);
  for (const other of units) {
    const i = callAt(other, cycle), { waits } = other;
    if (i >= 0 && cycle >= other.accepted[i] && isOwn(other.site[i])) found.push(`site ${other.site[i]}`);
    for (let j = place(waits.begin, cycle) - 1; j >= 0 && waits.reach[j] > cycle; j--) {
      if (waits.end[j] > cycle && waits.kind[j] === 0 && isOwn(waits.site[j])) found.push(`site ${waits.site[j]}, which waits for the arbiter`);
    }
  }
  return found;
}

function callText({ unit, call, wait, site, cycle }) {
  if (site === undefined) return [unit.members.join("\n"), plural(unit.site.length, "call")].join("\n");
  const at = site ? facts.sites[site] : null, lines = [site ? `site ${site}: ${at.callee}, called in ${at.caller}` : "main, started from outside"];
  if (wait !== undefined) {
    const i = callAt(unit, cycle), now = unit.waits.kind[wait] || i < 0 ? [] : [`in cycle ${grouped(cycle)} for ${siteName(unit.site[i])}`];
    return [...lines, waitText(unit.waits, wait), ...now].join("\n");
  }
  const { waits } = unit, accepted = unit.accepted[call];
  lines.push(`accepted in cycle ${grouped(accepted)}`);
  lines.push(unit.isOver[call] ? `runs in ${grouped(accepted + 1)} to ${grouped(unit.end[call] - 1)}, delivers in ${grouped(unit.end[call])}` : "does not end in this run");
  let from = accepted;
  for (let i = place(waits.begin, accepted) - 1; i >= 0 && waits.reach[i] >= from; i--) {
    if (waits.site[i] === site && waits.end[i] === from) { lines.splice(2, 0, waitText(waits, i)); from = waits.begin[i]; }
  }
  const awaited = awaitedBy(unit, cycle);
  if (awaited.length) lines.push(`in cycle ${grouped(cycle)} it awaits ${awaited.join(", ")}`);
  return [...lines, ...argumentsText(unit, call)].join("\n");
}

function waveText(event) {
  const row = Math.floor((event.clientY - event.target.getBoundingClientRect().top - 2) / WAVE), name = state.shown[row], cycle = Math.floor(cycleAt(event));
  if (name && cycle < state.from) return name;
  const value = name && cycle < state.to ? valueAt(name, cycle) : null;
  return value === null ? "" : [`${name} in cycle ${grouped(cycle)}`, ...formsOf(name, waves.get(name).width, value)].join("\n");
}

const tip = document.createElement("div");
tip.id = "tip";
tip.hidden = true;
document.body.append(tip);

function showTip(event, text) {
  tip.hidden = !text;
  if (!text) return;
  tip.textContent = text;
  tip.style.left = `${Math.max(4, Math.min(event.clientX + 14, window.innerWidth - tip.offsetWidth - 8))}px`;
  tip.style.top = `${event.clientY + 18 + tip.offsetHeight > window.innerHeight ? event.clientY - tip.offsetHeight - 10 : event.clientY + 18}px`;
}

/* Pictures of what is seen */

const pictures = {
  chart: [chartHeight, (draw) => { drawRows(draw, 0); drawWaiting(draw); }],
  waves: [wavesHeight, drawWavesOn],
};

function svgOf(name) {
  const [height, work] = pictures[name], context = new SvgContext(element(name).clientWidth, height());
  work(pen(context, context.width, context.height));
  redraw();
  return context.text();
}

function canvasOf(name) {
  const [height, work] = pictures[name], canvas = document.createElement("canvas"), draw = canvasPen(canvas, element(name).clientWidth, height(), 2);
  draw.context.fillStyle = "white";
  draw.context.fillRect(0, 0, draw.width, draw.height);
  work(draw);
  redraw();
  return canvas;
}

function save(blob, name) {
  const link = document.createElement("a");
  link.href = URL.createObjectURL(blob);
  link.download = name;
  link.click();
  setTimeout(() => URL.revokeObjectURL(link.href), 10000);
}

function saved(name, form) {
  const file = `${facts.name}.${name}.${Math.floor(state.from)}-${Math.ceil(state.to) - 1}.${form}`;
  if (form === "svg") save(new Blob([svgOf(name)], { type: "image/svg+xml" }), file);
  else canvasOf(name).toBlob((blob) => save(blob, file));
}

/* Hands */

function dragged(canvas, moved, clicked) {
  let begun = null, far = false;
  canvas.addEventListener("pointerdown", (event) => {
    if (event.button) return;
    begun = { x: event.clientX, from: state.from };
    far = false;
    canvas.setPointerCapture(event.pointerId);
  });
  canvas.addEventListener("pointermove", (event) => {
    if (!begun) return;
    far = far || Math.abs(event.clientX - begun.x) > 4;
    if (far) moved(event, begun);
  });
  canvas.addEventListener("pointerup", (event) => {
    if (begun && !far) clicked(event);
    begun = null;
  });
}

function hold(canvas, text, clicked) {
  dragged(canvas, (event, begun) => {
    tip.hidden = true;
    look(begun.from - (event.clientX - begun.x) / (canvas.clientWidth - gutter - RIGHT) * span(), span());
  }, clicked);
  canvas.addEventListener("mousemove", (event) => showTip(event, event.buttons ? "" : text(event)));
  canvas.addEventListener("mouseleave", () => { tip.hidden = true; });
  canvas.addEventListener("dblclick", (event) => zoom(0.5, cycleAt(event)));
  canvas.addEventListener("wheel", (event) => {
    if (event.ctrlKey) zoom(event.deltaY > 0 ? 1.25 : 0.8, cycleAt(event));
    else if (event.shiftKey || Math.abs(event.deltaX) > Math.abs(event.deltaY)) move((event.deltaX || event.deltaY) / 800);
    else return;
    event.preventDefault();
  }, { passive: false });
}

function toCursor(event) {
  const cycle = Math.floor(cycleAt(event));
  if (cycle >= 0 && cycle < facts.cycles && cycle >= Math.floor(state.from)) lookAt(cycle);
}

const keys = {
  ArrowLeft: (event) => move(event.shiftKey ? -1 : -0.1),
  ArrowRight: (event) => move(event.shiftKey ? 1 : 0.1),
  "+": () => zoom(0.5, state.cursor ?? undefined),
  "=": () => zoom(0.5, state.cursor ?? undefined),
  "-": () => zoom(2, state.cursor ?? undefined),
  0: () => look(0, facts.cycles),
  Home: () => look(0, span()),
  End: () => look(facts.cycles, span()),
  n: () => nextCall(1),
  p: () => nextCall(-1),
  w: () => nextWait(1),
  W: () => nextWait(-1),
  Escape: () => { state.cursor = null; mark(0); },
};
const press = {
  "to-first": "Home", "to-last": "End", "zoom-in": "+", "zoom-out": "-", "zoom-all": "0", "call-before": "p", "call-after": "n",
  "wait-before": "W", "wait-after": "w", unmark: "Escape",
};

function keyed(event) {
  const isTyping = event.target.matches("input[type=number], input[type=search]"), isForm = event.target.matches("input[type=radio]") && event.key.startsWith("Arrow");
  const isScrolled = event.target.matches(".scroll") && /^(Arrow|Home|End)/.test(event.key);
  if (isTyping || isForm || isScrolled || event.ctrlKey || event.altKey || event.metaKey || !keys[event.key]) return;
  keys[event.key](event);
  event.preventDefault();
}

function clickedOn(event) {
  const jump = event.target.closest("[data-wait]"), part = event.target.closest("[data-site]"), picture = event.target.closest("[data-save]");
  if (jump) jumpTo(Number(jump.dataset.from), Number(jump.dataset.wait));
  else if (part) mark(Number(part.dataset.site) === state.marked ? 0 : Number(part.dataset.site));
  if (picture) saved(...picture.dataset.save.split(" "));
  if (!event.target.closest("#chooser")) element("chooser").open = false;
}

function clickedChart(event) {
  const found = under(event);
  toCursor(event);
  if (!found || !found.site) return;
  mark(found.site);
  if (found.wait !== undefined) state.wait = { unit: found.unit, i: found.wait };
}

/* The graph is drawn as large as it fits, or as large as is asked for. */
function sizeGraph(factor) {
  const svg = document.querySelector(".graph svg"), box = svg.getBoundingClientRect();
  svg.classList.toggle("free", factor > 0);
  svg.style.width = factor > 0 ? `${box.width * factor}px` : "";
}

function handed() {
  for (const [name, key] of Object.entries(press)) element(name).addEventListener("click", (event) => keys[key](event));
  element("page-before").addEventListener("click", () => move(-1));
  element("page-after").addEventListener("click", () => move(1));
  element("go-to").addEventListener("change", (event) => { if (event.target.value !== "") lookAt(Number(event.target.value)); });
  for (const button of document.querySelectorAll("[data-size]")) button.addEventListener("click", () => sizeGraph(Number(button.dataset.size)));
  document.addEventListener("keydown", keyed);
  document.addEventListener("click", clickedOn);
  hold(element("chart"), (event) => { const found = under(event); return found ? callText(found) : ""; }, clickedChart);
  hold(element("waves"), waveText, toCursor);
  const jump = (event) => {
    const room = element("overview").clientWidth - gutter - RIGHT, at = (event.clientX - element("overview").getBoundingClientRect().left - gutter) / room * facts.cycles;
    look(at - span() / 2, span());
  };
  dragged(element("overview"), jump, jump);
  element("chart-scroll").addEventListener("scroll", redraw);
  new ResizeObserver(redraw).observe(element("chart-scroll"));
  for (const radio of document.querySelectorAll("input[name=form]")) radio.addEventListener("change", () => { state.form = radio.value; redraw(); });
}

/* The list of signals: those whose names have the text of the filter, 200 at most. */
function listSignals() {
  const asked = element("filter").value.toLowerCase(), box = element("signals"), names = [...waves.keys()].filter((name) => name.toLowerCase().includes(asked));
  box.replaceChildren(...names.slice(0, 200).map((name) => {
    const label = document.createElement("label"), check = document.createElement("input");
    check.type = "checkbox";
    check.checked = state.shown.includes(name);
    check.addEventListener("change", () => {
      state.shown = check.checked ? [...state.shown, name] : state.shown.filter((other) => other !== name);
      redraw();
    });
    label.append(check, ` ${name}`);
    return label;
  }));
  if (names.length > 200) box.append(`and ${grouped(names.length - 200)} more`);
}

/* As much room for names as the longest needs, but no more than a third of the page; and whole rows, as many as fit at first. */
function measured() {
  const longest = Math.max(...units.map((unit) => unit.members.join(", ").length * 7.3), ...state.shown.map((name) => name.length * LETTER));
  gutter = Math.max(GUTTER_LEAST, Math.min(longest + 16, element("chart").clientWidth / 3));
  let height = TOP + 4;
  for (const unit of units) if (height + rowHeight(unit) < Math.max(420, 0.8 * window.innerHeight)) height += rowHeight(unit); else break;
  element("chart-space").style.height = `${chartHeight()}px`;
  element("chart-scroll").style.height = `${height}px`;
  element("chart-scroll").style.maxHeight = `${chartHeight()}px`;
}

async function begin() {
  read(await unpacked(element("data").textContent));
  for (const edge of document.querySelectorAll(".graph .site")) edge.dataset.site = edge.id.slice(5);
  element("filter").addEventListener("input", listSignals);
  listSignals();
  measured();
  handed();
  look(0, facts.cycles > 20000 ? BEGIN_WITH : facts.cycles);
  document.body.dataset.ready = "yes";
}

begin().catch((fault) => {
  element("marked-text").textContent = "This browser cannot unpack the page's data (it needs DecompressionStream).";
  throw fault;
});
