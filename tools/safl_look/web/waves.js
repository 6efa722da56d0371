/* Waveforms: the words of signals, cycle by cycle. */

/* The changes of a wave that are seen, as boxes from cycle to cycle. Those that are too narrow to see are joined, with no word. */
function* boxes(wave, draw) {
  const from = Math.max(state.from, facts.first), to = Math.min(state.to, facts.end), count = wave.cycles.length;
  if (from >= to) return;
  let dense = null;
  for (let i = Math.max(0, place(wave.cycles, from - facts.first) - 1); i < count; i++) {
    const begin = Math.max(from, wave.cycles[i] + facts.first), end = Math.min(to, i + 1 < count ? wave.cycles[i + 1] + facts.first : facts.end);
    if (begin >= to) break;
    if (end <= begin) continue;
    if ((end - begin) * draw.scale < 2.5) { dense = dense ?? begin; continue; }
    if (dense !== null) yield [dense, begin, null];
    dense = null;
    yield [begin, end, i];
  }
  if (dense !== null) yield [dense, to, null];
}

function drawBit(draw, wave, y) {
  const { context } = draw;
  context.beginPath();
  let before = null;
  for (const [begin, end, i] of boxes(wave, draw)) {
    const left = draw.x(begin), right = draw.x(end);
    if (i === null) {
      context.fillStyle = DENSE;
      context.fillRect(left, y, right - left, 16);
      before = null;
      continue;
    }
    const level = y + (word(wave, i) ? 0.5 : 15.5);
    if (before === null) context.moveTo(left, level); else context.lineTo(left, level);
    context.lineTo(right, level);
    before = level;
  }
  context.strokeStyle = INK;
  context.lineWidth = 1.2;
  context.stroke();
}

function drawBus(draw, wave, y) {
  const { context } = draw;
  context.lineWidth = 1;
  for (const [begin, end, i] of boxes(wave, draw)) {
    const left = draw.x(begin), right = draw.x(end), slope = Math.min(3, (right - left) / 4);
    if (i === null) { context.fillStyle = DENSE; context.fillRect(left, y, right - left, 16); continue; }
    const value = word(wave, i);
    context.beginPath();
    for (const [x, z] of [[left, 8], [left + slope, 0], [right - slope, 0], [right, 8], [right - slope, 16], [left + slope, 16]]) context.lineTo(x, y + z);
    context.closePath();
    context.fillStyle = value ? "#eef3fa" : "white";
    context.fill();
    context.strokeStyle = "#8a97a6";
    context.stroke();
    const label = shownWord(wave.name, wave.width, value), most = Math.floor((right - left - 8) / LETTER);
    context.fillStyle = INK;
    context.textAlign = "center";
    context.fillText(label.length <= most ? label : most > 3 ? clipped(label, right - left - 8) : "", (Math.max(left, gutter) + Math.min(right, draw.right)) / 2, y + 12);
    context.textAlign = "left";
  }
}

/* What the page has no waveforms of is grey. */
function outside(draw) {
  draw.context.fillStyle = "#f0f1f3";
  for (const [begin, end] of [[0, facts.first], [facts.end, facts.cycles]]) {
    const left = Math.max(gutter, draw.x(begin)), right = Math.min(draw.right, draw.x(end));
    if (right <= left) continue;
    draw.context.fillRect(left, 0, right - left, draw.height);
    if (right - left < 240) continue;
    draw.context.fillStyle = FAINT;
    draw.context.textAlign = "center";
    draw.context.fillText("no waveforms of these cycles in this page", (left + right) / 2, 18);
    draw.context.textAlign = "left";
    draw.context.fillStyle = "#f0f1f3";
  }
}

const wavesHeight = () => Math.max(1, state.shown.length) * WAVE + 6;

function drawWavesOn(draw) {
  const { context } = draw;
  outside(draw);
  cursorLine(draw);
  axis(draw, false);
  state.shown.forEach((name, i) => {
    const wave = waves.get(name), y = i * WAVE + 6, value = state.cursor === null ? null : valueAt(name, state.cursor);
    context.fillStyle = INK;
    context.fillText(clipped(name, gutter - 8), 2, y + (value === null ? 12 : 9));
    if (value !== null) {
      context.font = "10px monospace";
      context.fillStyle = FAINT;
      context.fillText(clipped(state.form === "decimal" ? both(value) : shownWord(name, wave.width, value), gutter - 4), 2, y + 21);
      context.font = "11px monospace";
    }
    within(draw, gutter, () => (wave.width === 1 ? drawBit : drawBus)(draw, wave, y));
  });
}

function drawWaves() {
  const draw = penOf(element("waves"), wavesHeight());
  draw.context.clearRect(0, 0, draw.width, draw.height);
  drawWavesOn(draw);
}
