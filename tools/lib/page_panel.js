// ---- reading a cycle ----

const metres = (tenths) => (Number.isNaN(tenths) ? "-" : (tenths / 10000).toFixed(3));
const value = (name, shown) => (Number.isNaN(column(name)[cursor]) ? "-" : shown(column(name)[cursor]));

/** The time of day of a cycle's begin, to a tenth of a second where cycles are no whole ones. */
function clock(cycle, dated = false) {
  const time = told.start.ms + cycle * told.cycleMs, date = new Date(told.start.dated ? time : ((time % 86400000) + 86400000) % 86400000).toISOString();
  return (dated && told.start.dated ? `${date.slice(0, 10)} ` : "") + date.slice(11, told.cycleMs % 1000 ? 21 : 19);
}

const moment = () => (told.start ? `${clock(cursor, true)}` : `from ${cursor * told.cycleMs / 1000} s`);

function thrusterRows() {
  return told.thrusters.map((_, k) => {
    const letter = BALLOTS[column(`ballot${k}`)[cursor]], force = column(`force${k}`)[cursor];
    const orders = COMPUTERS.map((computer) => {
      const off = column(`order${k}_${computer}`)[cursor];
      return `<td class="${off ? `differs c${computer}` : ""}">${Number.isNaN(off) ? "-" : off + force}`;
    });
    return `<tr><td>t${k}<td class="${letter}" title="${NAMES[letter]}">${letter}<td>${force}<td>${share(k, force)}${orders.join("")}`;
  }).join("");
}

function wireRows() {
  return COMPUTERS.map((i) => `<tr><td class="c${i}">${i}<td>${metres(column(`north${i}`)[cursor])}<td>${metres(column(`east${i}`)[cursor])}`
    + `<td>${value(`apart${i}`, (off) => (off / 10000).toFixed(2))}<td>${value(`turn${i}`, (turn) => (turn / 100).toFixed(2))}`
    + `<td>${value(`speed${i}`, (speed) => (speed / 1000).toFixed(1))}<td>${value(`angle${i}`, (angle) => Math.round(angle / 100))}`).join("");
}

// ---- the plan ----

const TAIL = 60;      // cycles whose places are drawn

/** The last number of a column up to the cursor, at most so many cycles old. */
function lately(name, age) {
  const values = column(name);
  for (let cycle = cursor; cycle >= 0 && cycle > cursor - age; cycle--) if (!Number.isNaN(values[cycle])) return values[cycle];
  return NaN;
}

/** A round number of metres that the plan reaches to. */
function reach(points) {
  let far = 1;
  for (const [north, east] of points) far = Math.max(far, Math.abs(north), Math.abs(east));
  const unit = 10 ** Math.floor(Math.log10(far));
  return [1, 2, 5, 10].find((step) => step * unit >= far * 1.05) * unit;
}

/** The references round the setpoint, seen from above, north up: where each was in the last cycles, the vessel's heading and where the wind is from. */
function plan() {
  const set = [setAt("north"), setAt("east")], tails = COMPUTERS.map((i) => {
    const tail = [];
    for (let cycle = Math.max(0, cursor - TAIL + 1); cycle <= cursor; cycle++) {
      const north = column(`north${i}`)[cycle], east = column(`east${i}`)[cycle];
      if (!Number.isNaN(north)) tail.push([(north - set[0]) / 10000, (east - set[1]) / 10000]);
    }
    return tail;
  });
  if (!tails.some((tail) => tail.length)) return "";
  const far = reach(tails.flat()), size = 100, at = ([north, east]) => `${short(size + east / far * 90)} ${short(size - north / far * 90)}`;
  const heading = lately("turn0", 10), turn = Number.isNaN(heading) ? told.setpoint[2] : heading;
  const angle = ["angle0", "angle1", "angle2"].map((name) => lately(name, 10)).find((one) => !Number.isNaN(one));
  const drawn = tails.map((tail, i) => (tail.length === 0 ? "" : `<path class="trace s${i}" opacity=".6" d="M${tail.map(at).join("L")}"/>` + mark2(at(tail[tail.length - 1]), i))).join("");
  const said = tails.map((tail, i) => (tail.length ? `pos${i} ${tail[tail.length - 1].map((one) => one.toFixed(2)).join(" m north, ")} m east` : `pos${i} silent`)).join("; ");
  return `<h3>plan, north up: ${far} m to each side of the setpoint, the last ${TAIL} cycles</h3>`
    + `<svg class="plan" viewBox="0 0 200 200" role="img" aria-label="From the setpoint: ${said}"><rect class="frame" x="10" y="10" width="180" height="180"/>`
    + `<circle class="set" cx="100" cy="100" r="90"/><circle class="set" cx="100" cy="100" r="45"/><path class="set" d="M10 100H190M100 10V190"/>`
    + `<path class="hull" transform="rotate(${turn / 100} 100 100)" d="M100 84L105 93V114H95V93Z"/>` + drawn
    + (angle === undefined ? "" : `<path class="blow" transform="rotate(${(turn + angle) / 100} 100 100)" d="M100 12V30M100 34L96 25H104Z"/>`)
    + `<text x="14" y="22">N</text></svg>`;
}

/** A mark of a reference's own shape: a dot, a square, a triangle. */
function mark2(point, i) {
  const [left, top] = point.split(" ").map(Number);
  const shape = [`M${left - 4} ${top}a4 4 0 1 0 8 0a4 4 0 1 0 -8 0`, `M${left - 3.5} ${top - 3.5}h7v7h-7Z`, `M${left} ${top - 4.5}l4.5 8h-9Z`][i];
  return `<path class="f${i} mark" d="${shape}"/>`;
}

/** The setpoint in this cycle, in tenths of a mm. */
function setAt(axis) {
  const moving = columns[`set_${axis}`];
  return moving ? moving[cursor] : told.setpoint[axis === "north" ? 0 : 1] * 10;
}

// ---- all of it ----

function list(title, rows) {
  return `<h3>${title}</h3><dl>` + rows.map(([name, means, look, kind]) => `<dt class="${kind}">${escaped(name)}<dd>${escaped(means)}. <span class="look">Look at: ${escaped(look)}</span>`).join("") + "</dl>";
}

function read() {
  if (N === 0) { by("reading").innerHTML = "<h2>no cycles</h2>"; return; }
  const alarms = alarmsAt(cursor), watched = watchesAt(cursor), acts = told.acts.filter(([cycle]) => cycle === cursor), lost = [];
  for (let group = 0; group < told.groups; group++) if (columns[`lost${group}`][cursor]) lost.push(group);
  by("reading").innerHTML = `<button type="button" id="away" aria-label="put the panel away">&#215;</button><h2>cycle ${cursor} <small>${moment()}</small></h2>`
    + (told.guide ? "" : "computers: " + COMPUTERS.map((c) => `<span class="c${c}">${c}</span> ${MODES[column(`mode${c}`)[cursor]]}`).join(", "))
    + (lost.length ? `<br>lost groups: ${lost.join(", ")}` : "")
    + (watched.length ? list("watch", watched.map((watch) => [watch.says(watch.sizes[cursor]), watch.means, watch.look, "watch"])) : "")
    + list(alarms.length ? "alarms" : watched.length ? "no alarm, but see watch" : "no alarm", alarms.map((alarm) => [...alarm, "alarm"]))
    + (told.guide ? guideRows() : `<h3>newtons</h3><table><tr><th><th><th>force<th>%<th>by 0<th>by 1<th>by 2${thrusterRows()}</table>`)
    + `<h3>what the wires said in this cycle</h3><div class="wide"><table><tr><th><th>north m<th>east m<th>off m<th>head°<th>wind m/s<th>from°${wireRows()}</table></div>`
    + plan() + (acts.length ? `<h3>${told.guide ? "moves" : "script"}</h3><ul>${acts.slice(0, 30).map(([, act]) => `<li><code>${escaped(act)}</code>`).join("")}</ul>` : "");
  by("away").onclick = () => { by("reading").classList.remove("up"); by("lanes").focus(); };
}

/** The cycle in a sentence, for whoever hears the page. */
function sentence() {
  const parts = [`cycle ${cursor}, ${moment()}`], alarms = alarmsAt(cursor).map(([name]) => name), watched = watchesAt(cursor).map((watch) => watch.says(watch.sizes[cursor]));
  if (!told.guide) parts.push(COMPUTERS.map((c) => `computer ${c} ${MODES[column(`mode${c}`)[cursor]]}`).join(", "));
  parts.push(watched.length ? `watch: ${watched.join(", ")}` : "nothing to watch", alarms.length ? `alarms: ${alarms.join(", ")}` : "no alarm");
  return `${parts.join(". ")}.`;
}

let saying = 0;
function say() {
  clearTimeout(saying);
  saying = setTimeout(() => { by("said").textContent = N ? sentence() : "no cycles"; }, 250);
}
