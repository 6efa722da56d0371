/* What is drawn on: a canvas, or the text of an SVG with the same hands. And the looks of sites and waits. */

const GUTTER_LEAST = 170, RIGHT = 12, TOP = 26, BAR = 20, LANE = 10, GAP = 12, WAVE = 32, THIN = 3, LANES_MOST = 64;
const INK = "#222", FAINT = "#6b7280", LINE = "#e2e5ea", CURSOR = "#fbe7a8", DENSE = "#b9c4d0", SMALL = 5.4, LETTER = 6.7;
let gutter = GUTTER_LEAST;

const colour = (site) => site === 0 ? facts.main : facts.colours[(site - 1) % facts.colours.length];
const patternOf = (site) => site === 0 ? 0 : Math.floor((site - 1) / facts.colours.length) % facts.patterns.length;

class SvgContext {
  constructor(width, height) {
    Object.assign(this, { width, height, parts: [], defs: new Map(), stack: [], path: "", clipped: "", globalAlpha: 1, lineWidth: 1 });
    Object.assign(this, { fillStyle: INK, strokeStyle: INK, font: "11px monospace", textAlign: "left" });
  }

  save() { this.stack.push({ ...this }); }

  restore() {
    const { fillStyle, strokeStyle, font, textAlign, globalAlpha, lineWidth, clipped } = this.stack.pop();
    Object.assign(this, { fillStyle, strokeStyle, font, textAlign, globalAlpha, lineWidth, clipped });
  }

  put(name, attributes, text) {
    const all = { ...attributes, ...(this.globalAlpha < 1 ? { opacity: this.globalAlpha } : {}), ...(this.clipped ? { "clip-path": this.clipped } : {}) };
    const words = Object.entries(all).map(([key, value]) => ` ${key}="${typeof value === "number" ? +value.toFixed(2) : value}"`).join("");
    this.parts.push(text === undefined ? `<${name}${words}/>` : `<${name}${words}>${escaped(text)}</${name}>`);
  }

  beginPath() { this.path = ""; }

  moveTo(x, y) { this.path += `M${+x.toFixed(2)},${+y.toFixed(2)}`; }

  lineTo(x, y) { this.path += `${this.path ? "L" : "M"}${+x.toFixed(2)},${+y.toFixed(2)}`; }

  closePath() { this.path += "Z"; }

  rect(x, y, width, height) { this.path += `M${x},${y}h${width}v${height}h${-width}Z`; }

  clip() {
    const name = `clip${this.defs.size}`;
    this.defs.set(name, `<clipPath id="${name}"><path d="${this.path}"/></clipPath>`);
    this.clipped = `url(#${name})`;
  }

  fill() { this.put("path", { d: this.path, fill: this.fillStyle }); }

  stroke() { this.put("path", { d: this.path, fill: "none", stroke: this.strokeStyle, "stroke-width": this.lineWidth }); }

  fillRect(x, y, width, height) { this.put("rect", { x, y, width, height, fill: this.fillStyle }); }

  strokeRect(x, y, width, height) { this.put("rect", { x, y, width, height, fill: "none", stroke: this.strokeStyle, "stroke-width": this.lineWidth }); }

  fillText(text, x, y) {
    const bold = this.font.startsWith("bold") ? { "font-weight": "bold" } : {}, anchor = this.textAlign === "center" ? { "text-anchor": "middle" } : {};
    this.put("text", { x, y, fill: this.fillStyle, "font-size": parseFloat(this.font.match(/[\d.]+(?=px)/)), ...bold, ...anchor }, text);
  }

  clearRect() {}

  /* A pattern as a fill. */
  tiled({ size, path, width }, dark, back) {
    const name = `p${[size, width, dark, back].join("").replace(/[^\w]/g, "")}${path.length}`;
    const under = back ? `<rect width="${size}" height="${size}" fill="${back}"/>` : "", line = `stroke="${dark}" stroke-width="${width}" stroke-linecap="round"`;
    this.defs.set(name, `<pattern id="${name}" width="${size}" height="${size}" patternUnits="userSpaceOnUse">${under}<path d="${path}" ${line} fill="none"/></pattern>`);
    return `url(#${name})`;
  }

  text() {
    const size = `width="${this.width}" height="${this.height}" viewBox="0 0 ${this.width} ${this.height}"`;
    const head = `<svg xmlns="http://www.w3.org/2000/svg" ${size} font-family="monospace">`, back = `<rect width="${this.width}" height="${this.height}" fill="white"/>`;
    return [head, `<defs>${[...this.defs.values()].join("")}</defs>`, back, ...this.parts, "</svg>"].join("\n") + "\n";
  }
}

const escaped = (text) => String(text).replace(/[&<>]/g, (each) => ({ "&": "&amp;", "<": "&lt;", ">": "&gt;" })[each]);
const tiles = new Map();

/* A pattern as a fill of a canvas: drawn four times as large as it is used. */
function canvasTile(context, { size, path, width }, dark, back) {
  const name = [size, path, width, dark, back].join();
  if (!tiles.has(name)) {
    const tile = document.createElement("canvas"), inner = tile.getContext("2d");
    tile.width = tile.height = 4 * size;
    inner.scale(4, 4);
    if (back) { inner.fillStyle = back; inner.fillRect(0, 0, size, size); }
    Object.assign(inner, { strokeStyle: dark, lineWidth: width, lineCap: "round" });
    inner.stroke(new Path2D(path));
    const found = context.createPattern(tile, "repeat");
    found.setTransform(new DOMMatrix().scale(0.25));
    tiles.set(name, found);
  }
  return tiles.get(name);
}

const tiled = (context, ...tile) => context.tiled ? context.tiled(...tile) : canvasTile(context, ...tile);

/* A pen on a context: where cycles are, and how large the picture is. */
function pen(context, width, height) {
  const room = width - gutter - RIGHT, scale = room / (state.to - state.from);
  context.font = "11px monospace";
  return { context, width, height, room, scale, right: width - RIGHT, x: (cycle) => gutter + (cycle - state.from) * scale };
}

function canvasPen(canvas, width, height, ratio) {
  canvas.width = Math.round(width * ratio);
  canvas.height = Math.round(height * ratio);
  const context = canvas.getContext("2d");
  context.setTransform(ratio, 0, 0, ratio, 0, 0);
  return pen(context, width, height);
}

function penOf(canvas, height) {
  canvas.style.height = `${height}px`;
  return canvasPen(canvas, canvas.clientWidth, height, window.devicePixelRatio || 1);
}

function within(draw, left, work) {
  draw.context.save();
  draw.context.beginPath();
  draw.context.rect(left, 0, draw.right - left, draw.height);
  draw.context.clip();
  work();
  draw.context.restore();
}

/* The pattern of a site over its colour. */
function over(context, site, x, y, width, height, opacity = 0.6) {
  if (!patternOf(site) || width < 2) return;
  context.globalAlpha = opacity;
  context.fillStyle = tiled(context, facts.patterns[patternOf(site)], colour(site)[1]);
  context.fillRect(x, y, width, height);
  context.globalAlpha = 1;
}

function clipped(text, room) {
  const most = Math.floor(room / LETTER);
  return text.length <= most ? text : text.slice(0, Math.max(0, most - 1)) + "\u2026";
}

function tickStep(room) {
  let step = 1;
  for (let i = 0; step < room; i++) step = [1, 2, 5][(i + 1) % 3] * 10 ** Math.floor((i + 1) / 3);
  return step;
}

function axis(draw, isNamed) {
  const { context } = draw, step = tickStep((String(grouped(Math.ceil(state.to))).length * 6.6 + 18) / draw.scale);
  context.textAlign = "center";
  for (let cycle = Math.ceil(state.from / step) * step; cycle < state.to; cycle += step) {
    const x = Math.round(draw.x(cycle)) + 0.5;
    context.strokeStyle = LINE;
    context.lineWidth = 1;
    context.beginPath();
    context.moveTo(x, isNamed ? TOP - 6 : 0);
    context.lineTo(x, draw.height);
    context.stroke();
    const middle = draw.x(draw.scale > 14 ? cycle + 0.5 : cycle);
    if (isNamed && middle < draw.right - 4) {
      context.fillStyle = FAINT;
      context.fillText(grouped(cycle), middle, TOP - 13);
    }
  }
  context.textAlign = "left";
}

function cursorLine(draw) {
  if (state.cursor === null || state.cursor < state.from || state.cursor >= state.to) return;
  draw.context.fillStyle = CURSOR;
  draw.context.fillRect(draw.x(state.cursor), 0, Math.max(draw.scale, 2), draw.height);
}

/* The share of each column of the view that the spans cover, or of those of one site. */
function shares(spans, columns, [first, last], site) {
  const found = new Float32Array(columns), each = (state.to - state.from) / columns;
  for (let i = first; i < last; i++) {
    if (site !== undefined && spans.site[i] !== site) continue;
    const begin = Math.max(0, (spans.begin[i] - state.from) / each), end = Math.min(columns, (spans.end[i] - state.from) / each);
    const from = Math.floor(begin), to = Math.min(columns - 1, Math.floor(end));
    if (from === to) { found[from] += end - begin; continue; }
    found[from] += from + 1 - begin;
    for (let column = from + 1; column < to; column++) found[column] += 1;
    found[to] += end - to;
  }
  return found;
}
