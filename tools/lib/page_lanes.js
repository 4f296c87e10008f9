// ---- lanes ----

/** Adds a lane: its label, what draws it, and what says it in words. */
function lane(label, height, draw, kind = "", says = null, jump = null) {
  const element = document.createElement("section");
  element.className = `lane ${kind}`;
  const words = label.replace(/<[^>]*>/g, "");
  const head = jump ? `<button type="button" class="jump" title="${escaped(words)}: go to where it comes next">${label}</button>` : label;
  element.innerHTML = `<h2 title="${escaped(words)}">${head}</h2><svg height="${height}" role="img" aria-label="${escaped(words)}"><g></g><g></g></svg>`;
  by("lanes").append(element);
  if (jump) element.querySelector("button").onclick = () => next(jump);
  const svg = element.querySelector("svg");
  lanes.push({ element, svg, height, draw, label, kind, says, words, marks: kind.includes("overview") });
}

/** Goes to where a run of cycles begins next, from the first one on after the last. */
function next(run) {
  if (!run.starts.length) return;
  const at = run.starts.find((start) => start > cursor);
  go(at === undefined ? run.starts[0] : at);
}

const lastingFor = (run) => {
  const cycles = run.ends.reduce((sum, end, i) => sum + end - run.starts[i], 0);
  return `${cycles} ${cycles === 1 ? "cycle" : "cycles"}, the first ${run.starts[0]}`;
};

function axisLane() {
  const clocks = told.start !== null;
  lane(clocks ? "cycle, <b>time of day</b>" : "cycle", clocks ? 32 : 18, () => ticks().map((cycle) => {
    const left = short(x(cycle + (per() < 0.07 ? 0.5 : 0))) + 2;
    return `<text x="${left}" y="13">${cycle}</text>` + (clocks ? `<text x="${left}" y="27">${clock(cycle)}</text>` : "");
  }).join(""), "axis");
}

/** How many of some marks there are in each cycle, and the stroke of each pixel of the whole run. */
function counted(all) {
  const count = new Float64Array(N);
  for (const sizes of all) for (let cycle = 0; cycle < N; cycle++) if (sizes[cycle] > 0) count[cycle]++;
  const found = series(count);
  let most = 1;
  for (const high of found.high) most = Math.max(most, high);
  return (bottom, height) => {
    let path = "";
    for (let pixel = 0; pixel < width; pixel++) {
      const a = Math.floor(pixel * N / width), span = extent(found, a, Math.max(a + 1, Math.floor((pixel + 1) * N / width)));
      if (span && span[1] > 0) path += `M${pixel + 0.5} ${bottom}V${short(bottom - 3 - span[1] / most * (height - 3))}`;
    }
    return path;
  };
}

function overviewLane() {
  const alarms = counted(told.alarms.map((_, number) => column(`alarm${number}`))), watched = counted(watches.map((watch) => watch.sizes));
  const unfresh = runs((cycle) => told.thrusters.some((_, k) => column(`ballot${k}`)[cycle] > 0));
  const acts = actRuns(), drawn = {};
  const still = () => drawn[width] || (drawn[width] = bars(unfresh, 0, 52, "zerofill", 0, N) + `<path class="band sw" d="${watched(28, 18)}"/><path class="band sa" d="${alarms(51, 20)}"/>`
    + bars(acts, 2, 6, "actfill", 0, N));
  lane("the whole run", 52, () => {
    const left = view.from * width / Math.max(N, 1), right = view.to * width / Math.max(N, 1);
    return still() + `<rect class="window" x="${short(left)}" y="0.5" width="${short(Math.max(2, right - left))}" height="51"/>`;
  }, "first overview", () => `${told.alarms.length} kinds of alarm, ${watches.length} things to watch`);
}

function watchLanes() {
  watches.forEach((watch, number) => {
    watch.found = runs((cycle) => watch.sizes[cycle] > 0);
    lane(`<b>watch</b> ${escaped(watch.name)}`, 14, () => grid(14) + bars(watch.found, 2, 10, "watchfill"), number === 0 ? "row first" : "row",
      () => `${watch.means}; ${lastingFor(watch.found)}`, watch.found);
  });
}

function alarmLanes() {
  told.alarms.forEach(([name, means], number) => {
    const raised = column(`alarm${number}`), found = runs((cycle) => raised[cycle] === 1);
    lane(`<b>alarm</b> ${escaped(name)}`, 14, () => grid(14) + bars(found, 2, 10, "alarmfill"), number === 0 ? "row first" : "row",
      () => `${means}; ${lastingFor(found)}`, found);
  });
}

function actRuns() {
  const has = new Uint8Array(N);
  for (const [cycle] of told.acts) has[cycle] = 1;
  return runs((cycle) => has[cycle] === 1);
}

function modeLane() {
  const found = COMPUTERS.map((computer) => MODES.map((_, mode) => runs((cycle) => column(`mode${computer}`)[cycle] === mode)));
  lane("<b>computers</b> 0, 1, 2", 46, () => grid(46) + COMPUTERS.map((computer) => {
    const top = 5 + computer * 13;
    return bars(found[computer][0], top, 9, `live f${computer}`) + bars(found[computer][1], top, 9, "aligningfill") + bars(found[computer][2], top, 9, "offfill");
  }).join(""), "first", () => COMPUTERS.map((computer) => `computer ${computer}: ` + MODES.map((mode, at) => [mode, found[computer][at]])
    .filter(([, run]) => run.starts.length).map(([mode, run]) => `${mode} ${lastingFor(run)}`).join(", ")).join("; "));
}

function actLane() {
  if (told.acts.length === 0) return;
  const acts = actRuns();
  lane(told.guide ? "<b>moves</b> asked for" : "<b>script</b> acts", 16, () => grid(16) + bars(acts, 4, 8, "actfill"), "row", () => `${told.acts.length} acts; ${lastingFor(acts)}`, acts);
}

const lostRuns = [];
function groupLanes() {
  const lost = Array.from({ length: told.groups }, () => new Uint8Array(N));
  for (const [cycle, group, ready] of told.groupChanges) lost[group].fill(ready ? 0 : 1, cycle);
  lost.forEach((cycles, group) => {
    columns[`lost${group}`] = cycles;
    lostRuns[group] = runs((cycle) => cycles[cycle] === 1);
    if (lostRuns[group].starts.length) {
      lane(`<b>group ${group}</b> lost`, 16, () => grid(16) + bars(lostRuns[group], 3, 10, "lostfill"), "row", () => lastingFor(lostRuns[group]), lostRuns[group]);
    }
  });
}

/** The least and the greatest of some series in the cycles that are shown. */
function within(all) {
  const found = all.map((one) => extent(one, Math.floor(view.from), Math.ceil(view.to))).filter((span) => span);
  return found.length ? [Math.min(...found.map(([low]) => low)), Math.max(...found.map(([, high]) => high))] : null;
}

/** A lane of values. `set` is a value that is drawn as a line, or null; `also` are series that are drawn as a line of their own. */
function valueLane(label, names, height, shown, unit, least, set, also = []) {
  const all = names.map((name, number) => [series(column(name)), `s${number}`]).filter(([one]) => one.high.some((high) => high > -Infinity));
  if (all.length + also.length === 0) return;
  const every = all.map(([one]) => one).concat(also);
  lane(label, height, () => {
    const range = scale(every.map((one) => extent(one, Math.floor(view.from), Math.ceil(view.to))), height, least);
    return grid(height) + (set === null ? "" : along(range, set, "set")) + all.map(([one, look]) => trace(one, range.y, look, false)).join("")
      + also.map((one) => trace(one, range.y, "sf", true)).join("") + edges(range, height, shown, unit);
  }, "first", () => { const span = within(every); return span ? `from ${shown(span[0])} to ${shown(span[1])} ${unit} in what is shown` : "nothing in what is shown"; });
}

function headings() {
  const set = told.setpoint[2];
  for (const gyro of COMPUTERS) {
    const turns = column(`turn${gyro}`);
    columns[`off${gyro}`] = turns.map((turn) => set + ((turn - set + 54000) % 36000) - 18000);
  }
  return ["off0", "off1", "off2"];
}

/** Angles of the wind that go on past a full turn in place of leaping, so that a line can be drawn through them. */
function windAngles() {
  for (const sensor of COMPUTERS) {
    const angles = column(`angle${sensor}`), turned = new Float64Array(N).fill(NaN);
    let last = NaN;
    for (let cycle = 0; cycle < N; cycle++) {
      if (Number.isNaN(angles[cycle])) continue;
      const from = Number.isNaN(last) ? 0 : last;
      last = from + (((angles[cycle] - from) % 36000 + 54000) % 36000) - 18000;
      turned[cycle] = last;
    }
    columns[`blows${sensor}`] = turned;
  }
  return ["blows0", "blows1", "blows2"];
}

/** An angle off the bow: to port up to 180 degrees, and to starboard. */
function offBow(hundredths) {
  const turn = Math.round(((hundredths % 36000) + 54000) % 36000 / 100) - 180;
  return turn === 0 ? "ahead" : `${Math.abs(turn)}° ${turn > 0 ? "stb" : "port"}`;
}

const kilo = (newtons) => (Math.abs(newtons) >= 100 ? short(newtons / 1000) : Math.round(newtons) / 1000);

/** A force as a part of its limit, in percent. */
function share(thruster, force) {
  const limit = told.limits[thruster][force < 0 ? 0 : 1];
  return limit === 0 ? 0 : Math.round(100 * Math.abs(force / limit));
}

function thrusterLane(thruster) {
  const force = series(column(`force${thruster}`)), ballot = column(`ballot${thruster}`), height = 60, group = told.thrusters[thruster];
  const held = runs((cycle) => ballot[cycle] === 1), zero = runs((cycle) => ballot[cycle] === 2), [least, most] = told.limits[thruster];
  const orders = COMPUTERS.map((computer) => {
    const difference = column(`order${thruster}_${computer}`);
    return series(difference.map((off, cycle) => (off === 0 ? NaN : off + force.values[cycle])));
  });
  const used = (span) => (span ? Math.max(share(thruster, span[0]), share(thruster, span[1])) : 0);
  lane(`<b>t${thruster}</b> group ${group}`, height, () => {
    const a = Math.floor(view.from), b = Math.ceil(view.to), spans = [extent(force, a, b), [0, 0]], part = used(spans[0]);
    if (by("scale").checked) spans.push(...orders.map((one) => extent(one, a, b)));
    if (by("limits").checked) spans.push(told.limits[thruster]);
    const range = scale(spans, height, 400);
    let text = `<text class="right" x="${width - 4}" y="11">${part} % of its limit</text>`;
    if (per() < 1 / 14) for (let cycle = Math.max(0, a); cycle < Math.min(N, b); cycle++) {
      if (ballot[cycle] > 0) text += `<text class="letter" x="${short(x(cycle + 0.5))}" y="${height - 4}">${BALLOTS[ballot[cycle]]}</text>`;
    }
    return bars(lostRuns[group], 0, height, "gonefill") + bars(held, 0, height, "heldfill") + bars(zero, 0, height, "zerofill") + grid(height)
      + along(range, 0, "nought") + along(range, least, "limit") + along(range, most, "limit")
      + orders.map((one, computer) => strokes(one, range.y, `s${computer}`)).join("") + trace(force, range.y, "sf", true)
      + edges(range, height, kilo, "kN") + text;
  }, "first", () => {
    const span = extent(force, Math.floor(view.from), Math.ceil(view.to));
    return (span ? `from ${kilo(span[0])} to ${kilo(span[1])} kN in what is shown, up to ${used(span)} % of its limit` : "nothing in what is shown")
      + (held.starts.length ? `; held in ${lastingFor(held)}` : "") + (zero.starts.length ? `; zero in ${lastingFor(zero)}` : "");
  });
}
