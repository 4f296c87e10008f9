// ---- moving ----

let asked = false;
function redraw() {
  if (asked) return;
  asked = true;
  requestAnimationFrame(() => { asked = false; draw(); });
}

function draw() {
  width = Math.max(50, Math.floor(lanes[0].svg.clientWidth));
  for (const one of lanes) one.svg.firstChild.innerHTML = one.draw();
  by("span").textContent = N ? shown() : "";
  describe();
  mark();
}

/** The cycles that are shown, and their times of day. */
function shown() {
  const first = Math.floor(view.from), last = Math.min(N, Math.ceil(view.to)) - 1;
  return `cycles ${first} to ${last}` + (told.start ? `, ${clock(first)} to ${clock(last)}` : "");
}

/** Puts the words of each lane beside its drawing, once the user stays. */
let describing = 0;
function describe() {
  clearTimeout(describing);
  describing = setTimeout(() => {
    for (const one of lanes) if (one.says) one.svg.setAttribute("aria-label", `${one.words}: ${one.says()}`);
  }, 400);
}

function mark() {
  const left = x(cursor), wide = Math.max(1, x(cursor + 1) - left);
  for (const one of lanes) {
    if (one.marks) { one.svg.lastChild.innerHTML = `<path class="cursor" d="M${short((cursor + 0.5) * width / Math.max(N, 1))} 0V${one.height}"/>`; continue; }
    one.svg.lastChild.innerHTML = wide > 3 ? `<rect class="cell" x="${short(left)}" width="${short(wide)}" height="${one.height}"/>`
      : `<path class="cursor" d="M${short(left + wide / 2)} 0V${one.height}"/>`;
  }
}

function show(from, to) {
  const span = Math.min(Math.max(N, 1), Math.max(6, to - from));
  const middle = (from + to) / 2, begin = Math.max(0, Math.min(Math.max(N, 1) - span, middle - span / 2));
  view.from = begin; view.to = begin + span;
  note();
  redraw();
}

function go(cycle, follow = true) {
  cursor = Math.max(0, Math.min(N - 1, Math.round(cycle) || 0));
  by("cycle").value = cursor;
  read();
  say();
  note();
  const span = view.to - view.from;
  if (follow && (cursor < view.from || cursor + 1 > view.to)) show(cursor - span / 2, cursor + span / 2);
  else mark();
}

const zoom = (factor, at = cursor + 0.5) => show(at - (at - view.from) * factor, at + (view.to - at) * factor);

function change(step) {
  let cycle = cursor + step;
  while (cycle >= 0 && cycle < N && !changed[cycle]) cycle += step;
  if (cycle >= 0 && cycle < N) go(cycle);
}

let noting = 0;
function note() {
  clearTimeout(noting);
  noting = setTimeout(() => history.replaceState(null, "", `#cycle=${cursor}&from=${Math.floor(view.from)}&to=${Math.ceil(view.to)}`), 200);
}

// ---- what the user does ----

/** Where a pointer is: as a part of the lanes' width, and as a cycle. */
const part = (event) => (event.clientX - lanes[0].svg.getBoundingClientRect().left) / width;
const cycleAt = (event) => view.from + part(event) * (view.to - view.from);
const inOverview = (event) => lanes[0].element.contains(event.target);

/** On a narrow screen: brings the panel beside the finger, below it or, for one low on the screen, above it. */
function bring(top) {
  const panel = by("reading");
  panel.classList.add("up");
  panel.classList.toggle("above", top > window.innerHeight * 0.52);
}

function pointers() {
  const area = by("lanes"), down = new Map();
  let start = null;
  area.addEventListener("pointerdown", (event) => {
    if (part(event) < 0 || event.target.closest("button")) return;
    area.setPointerCapture(event.pointerId);
    down.set(event.pointerId, event);
    start = { at: part(event), from: view.from, to: view.to, overview: inOverview(event), moved: false, spread: spread() };
  });
  area.addEventListener("pointermove", (event) => {
    if (!start || !down.has(event.pointerId)) return;
    down.set(event.pointerId, event);
    const along = part(event) - start.at, span = start.to - start.from;
    if (down.size === 2) { pinch(); return; }
    if (Math.abs(along) * width > 4) start.moved = true;
    if (!start.moved) return;
    area.classList.add("moving");
    if (start.overview) show(Math.min(start.at, part(event)) * N, Math.max(start.at, part(event)) * N);
    else show(start.from - along * span, start.to - along * span);
  });
  const spread = () => { const [a, b] = [...down.values()]; return b ? Math.max(20, Math.abs(a.clientX - b.clientX)) : 0; };
  function pinch() {
    if (!start.spread) { start.spread = spread(); start.from = view.from; start.to = view.to; return; }
    start.moved = true;
    const middle = (start.from + start.to) / 2, half = (start.to - start.from) / 2 * start.spread / spread();
    show(middle - half, middle + half);
  }
  function up(event) {
    if (start && !start.moved && event.type === "pointerup" && down.size === 1) bring(event.clientY);
    if (start && !start.moved && event.type === "pointerup" && down.size === 1) {
      if (start.overview) { const middle = part(event) * N, half = (view.to - view.from) / 2; show(middle - half, middle + half); go(Math.floor(middle)); }
      else go(Math.floor(cycleAt(event)));
    }
    down.delete(event.pointerId);
    area.classList.remove("moving");
    start = null;
  }
  area.addEventListener("pointerup", up);
  area.addEventListener("pointercancel", up);
}

/** Zooms at the pointer by a double click or by Ctrl and wheel, and moves along by a wheel that goes sideways. */
function wheels() {
  const area = by("lanes");
  area.addEventListener("dblclick", (event) => { if (part(event) >= 0 && !inOverview(event)) zoom(0.4, cycleAt(event)); });
  area.addEventListener("wheel", (event) => {
    if (event.ctrlKey || event.metaKey) { event.preventDefault(); zoom(Math.exp(event.deltaY / 300), cycleAt(event)); }
    else if (event.shiftKey || Math.abs(event.deltaX) > Math.abs(event.deltaY)) {
      event.preventDefault();
      const along = (event.deltaX || event.deltaY) * per();
      show(view.from + along, view.to + along);
    }
  }, { passive: false });
}

function keys(event) {
  if (event.target.tagName === "INPUT" && event.target.type === "number") { if (event.key === "Enter") go(Number(event.target.value)); return; }
  if (event.ctrlKey || event.metaKey || event.altKey) return;
  const span = view.to - view.from;
  const does = {
    ArrowLeft: () => go(cursor - (event.shiftKey ? 10 : 1)), ArrowRight: () => go(cursor + (event.shiftKey ? 10 : 1)),
    Home: () => go(0), End: () => go(N - 1), "+": () => zoom(0.5), "=": () => zoom(0.5), "-": () => zoom(2), 0: () => show(0, N),
    n: () => change(1), p: () => change(-1), "[": () => show(view.from - span / 2, view.to - span / 2), "]": () => show(view.from + span / 2, view.to + span / 2),
  }[event.key];
  if (event.key === "Escape") by("reading").classList.remove("up");
  if (does) { event.preventDefault(); does(); }
}

function listen() {
  pointers();
  printing();
  wheels();
  document.addEventListener("keydown", keys);
  by("cycle").addEventListener("change", (event) => go(Number(event.target.value)));
  by("before").onclick = () => change(-1);
  by("after").onclick = () => change(1);
  by("in").onclick = () => zoom(0.5);
  by("out").onclick = () => zoom(2);
  by("whole").onclick = () => show(0, N);
  by("scale").onchange = redraw;
  by("limits").onchange = redraw;
  new ResizeObserver(redraw).observe(by("lanes"));
}

