"use strict";
const told = JSON.parse(document.getElementById("told").textContent);
const N = told.cycles, BLOCK = 64, COMPUTERS = [0, 1, 2];
const BALLOTS = ["F", "H", "Z"], MODES = ["live", "aligning", "off"], NAMES = { F: "fresh", H: "held", Z: "zero" };
const by = (id) => document.getElementById(id);
const escaped = (text) => String(text).replace(/[&<>"]/g, (letter) => ({ "&": "&amp;", "<": "&lt;", ">": "&gt;", '"': "&quot;" })[letter]);
const view = { from: 0, to: Math.max(N, 1) };
let cursor = 0, lanes = [], columns = {}, width = 600, changed = null;

// ---- columns ----

async function unpacked() {
  const packed = Uint8Array.from(atob(by("data").textContent), (letter) => letter.charCodeAt(0));
  const stream = new Blob([packed]).stream().pipeThrough(new DecompressionStream("deflate"));
  return new Uint8Array(await new Response(stream).arrayBuffer());
}

function decoded(bytes) {
  let at = 0;
  for (const name of told.columns) {
    const column = new Float64Array(N);
    let last = 0;
    for (let cycle = 0; cycle < N; cycle++) {
      let code = 0, unit = 1, byte;
      do { byte = bytes[at++]; code += (byte & 127) * unit; unit *= 128; } while (byte > 127);
      if (code === 0) { column[cycle] = NaN; continue; }
      code -= 1;
      last += code % 2 ? -(code + 1) / 2 : code / 2;
      column[cycle] = last;
    }
    columns[name] = column;
  }
}

const column = (name) => columns[name] || (columns[name] = new Float64Array(N).fill(NaN));

/** What a column spans in each block of so many cycles, from what it spans in smaller ones. */
function blocksOf(low, high, size) {
  const count = Math.ceil(low.length / size), lows = new Float64Array(count).fill(Infinity), highs = new Float64Array(count).fill(-Infinity);
  for (let i = 0, block = 0, left = size; i < low.length; i++) {
    if (low[i] < lows[block]) lows[block] = low[i];
    if (high[i] > highs[block]) highs[block] = high[i];
    if (--left === 0) { block++; left = size; }
  }
  return [lows, highs];
}

/** A column with what it spans in each block of 8 cycles, and of 64. */
function series(values) {
  const [fewLow, fewHigh] = blocksOf(values, values, 8), [low, high] = blocksOf(fewLow, fewHigh, BLOCK / 8);
  return { values, fewLow, fewHigh, low, high };
}

/** The least and the greatest value in the cycles from a up to b. */
function extent(one, a, b) {
  let low = Infinity, high = -Infinity, cycle = Math.max(0, a);
  const end = Math.min(N, b);
  while (cycle < end) {
    let least, most;
    if (cycle % BLOCK === 0 && cycle + BLOCK <= end) {
      least = one.low[cycle / BLOCK]; most = one.high[cycle / BLOCK]; cycle += BLOCK;
    } else if (cycle % 8 === 0 && cycle + 8 <= end) {
      least = one.fewLow[cycle / 8]; most = one.fewHigh[cycle / 8]; cycle += 8;
    } else {
      least = most = one.values[cycle++];
    }
    if (least < low) low = least;
    if (most > high) high = most;
  }
  return low <= high ? [low, high] : null;
}

/** The runs of cycles in which a test holds: where each begins, and where it is over. */
function runs(test) {
  const starts = [], ends = [];
  for (let cycle = 0; cycle < N; cycle++) {
    if (!test(cycle)) continue;
    starts.push(cycle);
    while (cycle < N && test(cycle)) cycle++;
    ends.push(cycle);
  }
  return { starts, ends };
}

