"use strict";

/* The facts of the run, as the page has them: numbers packed as bytes, and the words of signals. */

const element = (name) => document.getElementById(name);
const facts = JSON.parse(element("facts").textContent);
const state = { from: 0, to: facts.cycles, cursor: null, marked: 0, wait: null, form: "decimal", shown: [] };
let units = [], waves = new Map(), waiting = null;

async function unpacked(text) {
  const letters = atob(text), packed = new Uint8Array(letters.length);
  for (let i = 0; i < letters.length; i++) packed[i] = letters.charCodeAt(i);
  const stream = new Blob([packed]).stream().pipeThrough(new DecompressionStream("deflate"));
  return new Uint8Array(await new Response(stream).arrayBuffer());
}

/* Numbers of seven bits in each byte, the lowest first; the eighth bit says that more follow. */
function numbers(bytes, [begin, length]) {
  let count = 0;
  for (let i = begin; i < begin + length; i++) count += bytes[i] < 128;
  const found = new Uint32Array(count);
  for (let i = begin, at = 0; at < count; at++) {
    let value = 0, unit = 1;
    for (; bytes[i] > 127; i++, unit *= 128) value += (bytes[i] & 127) * unit;
    found[at] = value + bytes[i++] * unit;
  }
  return found;
}

/* Each number added to those before it. */
function summed(numbers) {
  for (let i = 1; i < numbers.length; i++) numbers[i] += numbers[i - 1];
  return numbers;
}

const rising = (bytes, piece) => summed(numbers(bytes, piece));

function readSpans(bytes, piece) {
  const edges = rising(bytes, piece);
  return { begin: edges.filter((_, i) => i % 2 === 0), end: edges.filter((_, i) => i % 2 === 1) };
}

/* The waits of a unit's calls, in the order of their beginnings. Those whom a wait is for stand from where those of the wait before end. */
function readWaits(bytes, raw) {
  const coded = numbers(bytes, raw.site), length = numbers(bytes, raw.length), begin = rising(bytes, raw.begin);
  const last = rising(bytes, raw.last), end = begin.map((cycle, i) => cycle + length[i]), reach = Uint32Array.from(end);
  for (let i = 1; i < reach.length; i++) reach[i] = Math.max(reach[i], reach[i - 1]);
  const lane = numbers(bytes, raw.lane), hidden = lane.reduce((sum, each) => sum + (each >= LANES_MOST), 0);
  return {
    begin, end, reach, lane, hidden, site: coded.map((x) => x >> 1), kind: coded.map((x) => x & 1),
    last, holder: numbers(bytes, raw.holder), held: numbers(bytes, raw.held),
  };
}

/* A unit: its calls run in the cycles from begin to before end; its waits; and the spans in which it works. */
function readUnit(bytes, raw) {
  const accepted = rising(bytes, raw.calls.accepted), length = numbers(bytes, raw.calls.length);
  return {
    name: raw.name, members: raw.members, site: numbers(bytes, raw.calls.site), accepted,
    waits: readWaits(bytes, raw.waits), lanes: Math.min(raw.waits.lanes, LANES_MOST),
    begin: accepted.map((cycle) => cycle + 1),
    end: accepted.map((cycle, i) => length[i] ? cycle + length[i] + 1 : facts.cycles),
    isOver: length,
    works: readSpans(bytes, raw.works),
  };
}

function readWave(bytes, [name, width, cycles, words]) {
  return { name, width, cycles: rising(bytes, cycles), words: width === 1 ? bytes[words[0]] : bytes.subarray(words[0], words[0] + words[1]) };
}

function read(bytes) {
  units = facts.units.map((raw) => readUnit(bytes, raw));
  waves = new Map(facts.waves.map((raw) => [raw[0], readWave(bytes, raw)]));
  waiting = readSpans(bytes, facts.waiting);
  state.shown = facts.shown;
}

/* The word of a wave after its change number i. */
function word(wave, i) {
  if (wave.width === 1) return BigInt((wave.words + i) & 1);
  const size = Math.ceil(wave.width / 8), count = wave.cycles.length;
  let value = 0n;
  for (let j = size - 1; j >= 0; j--) value = value << 8n | BigInt(wave.words[j * count + i]);
  return value;
}

/* How many of the rising numbers are at most value. */
function place(array, value) {
  let low = 0, high = array.length;
  while (low < high) {
    const middle = (low + high) >> 1;
    if (array[middle] <= value) low = middle + 1; else high = middle;
  }
  return low;
}

function valueAt(name, cycle) {
  const wave = waves.get(name);
  if (!wave || cycle < facts.first || cycle >= facts.end) return null;
  return word(wave, place(wave.cycles, cycle - facts.first) - 1);
}

/* Which of the sorted spans, that do not overlap, are seen: from the first number to before the second. */
function seen(spans) {
  return [place(spans.end, state.from), place(spans.begin, state.to - 1e-9)];
}

/* The waits that are seen: they are sorted by their beginnings, and may overlap. */
function seenWaits(waits) {
  return [place(waits.reach, state.from), place(waits.begin, state.to - 1e-9)];
}

/* The call that a unit runs or accepts in a cycle, or -1. */
function callAt(unit, cycle) {
  const i = place(unit.accepted, cycle) - 1;
  return i >= 0 && cycle < unit.end[i] ? i : -1;
}

const unitOf = (site) => units.find((unit) => unit.name === facts.sites[site].unit);

/* Texts */

const grouped = (value) => value.toLocaleString("en-US");
const plural = (count, what) => `${grouped(count)} ${what}${count === 1 ? "" : "s"}`;
const siteName = (site) => site ? `site ${site}` : "main's call";
const hexadecimal = (value) => "0x" + value.toString(16);
const both = (value) => value < 10n ? value.toString() : `${value} = ${hexadecimal(value)}`;

/* The parts of a word that is joined of others, each with its text in the source. */
function partsOf(name, value) {
  let above = value;
  return (facts.parts[name] ?? []).slice().reverse().map(([text, width]) => {
    const part = above & (1n << BigInt(width)) - 1n;
    above >>= BigInt(width);
    return [text, part];
  }).reverse();
}

function shownWord(name, width, value) {
  if (state.form === "hexadecimal") return hexadecimal(value);
  if (state.form === "signed") return (width > 1 ? BigInt.asIntN(width, value) : value).toString();
  const parts = state.form === "parts" ? partsOf(name, value) : [];
  return parts.length ? parts.map(([, part]) => part).join(" | ") : value.toString();
}

/* A word in all forms, in lines. */
function formsOf(name, width, value) {
  const signed = BigInt.asIntN(width, value), lines = [value.toString()];
  if (value > 9n) lines.push(hexadecimal(value));
  if (width > 1 && signed < 0n) lines.push(`${signed} signed`);
  return [...lines, ...partsOf(name, value).map(([text, part]) => `  ${text} = ${part}`)];
}

function waitText(waits, i) {
  const holders = [];
  for (let j = i ? waits.last[i - 1] : 0; j < waits.last[i]; j++) holders.push(`${siteName(waits.holder[j])} (${grouped(waits.held[j])})`);
  const what = waits.kind[i] ? "an argument, of" : "the arbiter, the unit works for";
  return `waits ${plural(waits.end[i] - waits.begin[i], "cycle")}, ${grouped(waits.begin[i])} to ${grouped(waits.end[i] - 1)}, for ${what} ${holders.join(", ")}`;
}
