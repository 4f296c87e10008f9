// ---- drawing ----

const x = (cycle) => (cycle - view.from) * width / (view.to - view.from);
const per = () => (view.to - view.from) / width;
const short = (number) => Math.round(number * 10) / 10;

function bars(run, top, height, look, from = view.from, to = view.to) {
  const at = (cycle) => (cycle - from) * width / (to - from);
  let low = 0, high = run.starts.length;
  while (low < high) { const middle = (low + high) >> 1; if (run.ends[middle] <= from) low = middle + 1; else high = middle; }
  let path = "", left = null, right = null;
  const put = () => { if (left !== null) path += `M${short(left)} ${top}H${short(right)}V${top + height}H${short(left)}Z`; };
  for (let i = low; i < run.starts.length && run.starts[i] < to; i++) {
    const a = Math.max(-2, at(run.starts[i])), b = Math.min(width + 2, Math.max(at(run.ends[i]), a + 1.5));
    if (left !== null && a <= right) { right = Math.max(right, b); continue; }
    put();
    left = a; right = b;
  }
  put();
  return path ? `<path class="${look}" d="${path}"/>` : "";
}

/** The scale of a lane: what stands at its bottom and at its top, and the height of a value, held within the lane. */
function scale(spans, height, least) {
  let low = Infinity, high = -Infinity;
  for (const span of spans) if (span) { low = Math.min(low, span[0]); high = Math.max(high, span[1]); }
  if (low > high) { low = 0; high = 0; }
  const pad = Math.max((high - low) * 0.08, (least - (high - low)) / 2, least * 0.02);
  const bottom = low - pad, top = high + pad;
  return { low, high, bottom, top, y: (value) => short(Math.min(height - 2, Math.max(2, (top - value) / (top - bottom) * height))) };
}

/** A line through what a column has: a step a cycle, or points that are joined; when there are more cycles than pixels, what each pixel spans. */
function trace(one, y, look, steps) {
  const values = one.values, first = Math.max(0, Math.floor(view.from) - 1), last = Math.min(N, Math.ceil(view.to) + 1);
  let path = "", pen = false;
  if (per() > 1) {
    for (let pixel = 0; pixel < width; pixel++) {
      const a = Math.floor(view.from + pixel * per()), span = extent(one, a - 1, Math.floor(view.from + (pixel + 1) * per()));
      if (!span) continue;
      const top = y(span[1]), bottom = y(span[0]);
      path += `M${pixel + 0.5} ${top}V${Math.max(bottom, top + 1)}`;
    }
    return `<path class="band ${look}" d="${path}"/>`;
  }
  const half = steps ? 0 : 0.5;
  let dots = "";
  for (let cycle = first; cycle < last; cycle++) {
    const value = values[cycle];
    if (Number.isNaN(value)) { pen = pen && !steps && per() < 1 && !Number.isNaN(values[cycle + 1]) && !Number.isNaN(values[cycle - 1]); continue; }
    const left = short(x(cycle + half)), at = y(value);
    path += `${pen ? "L" : "M"}${left} ${at}`;
    if (steps) path += `H${short(x(cycle + 1))}`;
    if (!steps && per() < 0.2) dots += `M${left - 2.5} ${at}a2.5 2.5 0 1 0 5 0a2.5 2.5 0 1 0 -5 0`;
    else if (!steps && !pen) path += `h0.1`;
    pen = true;
  }
  return `<path class="trace ${look}" d="${path}"/>` + (dots ? `<path class="${look.replace("s", "f")}" d="${dots}"/>` : "");
}

/** Orders that differ from the force: a stroke for each, at the lane's edge where it is beyond the scale. */
function strokes(one, y, look) {
  let path = "";
  const pixels = per() > 1, count = pixels ? width : Math.min(N, Math.ceil(view.to)) - Math.floor(view.from);
  for (let i = 0; i < count; i++) {
    const a = pixels ? Math.floor(view.from + i * per()) : Math.floor(view.from) + i;
    const span = extent(one, a, pixels ? Math.max(a + 1, Math.floor(view.from + (i + 1) * per())) : a + 1);
    if (!span) continue;
    if (pixels) path += `M${i + 0.5} ${y(span[1])}V${Math.max(y(span[0]), y(span[1]) + 2)}`;
    else path += `M${short(x(a))} ${y(span[0])}H${short(x(a + 1))}`;
  }
  return path ? `<path class="order ${look}" d="${path}"/>` : "";
}

function edges(range, height, shown, unit) {
  return `<text x="4" y="11">${shown(range.high)} ${unit}</text><text x="4" y="${height - 3}">${shown(range.low)}</text>`;
}

/** A line along a lane at a value, where it is within the lane's scale. */
const along = (range, value, look) => (value < range.bottom || value > range.top ? "" : `<path class="${look}" d="M0 ${range.y(value)}H${width}"/>`);

function ticks() {
  const wanted = (view.to - view.from) / Math.max(2, width / 90);
  let step = 1;
  while (step < wanted) step *= step.toString().startsWith("2") ? 2.5 : 2;
  const found = [];
  for (let cycle = Math.ceil(view.from / step) * step; cycle < view.to; cycle += step) found.push(cycle);
  return found;
}

const grid = (height) => `<path class="grid" d="${ticks().map((cycle) => `M${short(x(cycle))} 0V${height}`).join("")}"/>`;

