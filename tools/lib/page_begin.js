// ---- beginning ----

function head() {
  const command = told.guide ? "guide" : "replay", counts = told.counts;
  by("title").textContent = `dp ${command} ${told.names.join(" ")}`;
  document.title = `${told.names[1]} · dp ${command}`;
  const acts = told.moreActs ? ` The first ${told.acts.length} acts of the ${told.guide ? "moves" : "script"} are shown.` : "";
  by("facts").innerHTML = `<b>${N}</b> cycles of <b>${told.cycleMs / 1000} s</b>, `
    + (told.guide ? `${told.moves} ${told.moves === 1 ? "move" : "moves"}; ` : `${told.thrusters.length} thrusters; ballots: <b>${counts.F}</b> fresh, <b class="H">${counts.H}</b> held, <b class="Z">${counts.Z}</b> zero; `)
    + `it ends with <code>${escaped(told.last || "nothing: the output is cut")}</code>.${acts}`
    + (told.start ? ` It begins at ${clock(0, true)} (by ${escaped(told.start.by)}).` : "");
}

/** Says beside the other facts what there is to watch. */
function watchFacts() {
  if (!watches.length) return;
  by("watched").innerHTML = `<b class="watchword">Watch</b> (the program raises no alarm for it): ${watches.map((watch) => `${escaped(watch.name)} in ${lastingFor(watch.found)}`).join("; ")}.`;
}

function findChanges() {
  changed = new Uint8Array(N);
  const watched = Object.keys(columns).filter((name) => /^(mode|ballot|alarm|lost)/.test(name));
  if (told.guide) for (const [cycle] of told.acts) changed[cycle] = 1;
  for (const watch of watches) for (const at of [...watch.found.starts, ...watch.found.ends]) if (at > 0 && at < N) changed[at] = 1;
  for (const name of watched) {
    const values = columns[name];
    for (let cycle = 1; cycle < N; cycle++) if (!Object.is(values[cycle], values[cycle - 1])) changed[cycle] = 1;
  }
}

function lanesOfReplay() {
  findWatches();
  overviewLane();
  watchLanes();
  alarmLanes();
  axisLane();
  if (!told.guide) modeLane();
  actLane();
  groupLanes();
}

function lanesOfWires() {
  const moving = ["north", "east", "heading"].map((axis) => (told.guide ? [series(column(`set_${axis}`))] : []));
  const fixed = (value) => (told.guide ? null : value);
  const whose = told.guide ? "set, references" : "of references";
  const far = (tenths) => (tenths / 10000).toFixed(2);
  valueLane(`<b>north</b> ${whose}`, ["north0", "north1", "north2"], 88, far, "m", 200, fixed(told.setpoint[0] * 10), moving[0]);
  valueLane(`<b>east</b> ${whose}`, ["east0", "east1", "east2"], 88, far, "m", 200, fixed(told.setpoint[1] * 10), moving[1]);
  valueLane("<b>off</b> the middle one", ["apart0", "apart1", "apart2"], 44, far, "m", 200, told.offMm * 10);
  valueLane(`<b>heading</b> ${told.guide ? "set, gyros" : "of the gyros"}`, told.guide ? headingsOfGuide() : headings(), 56, (turn) => (turn / 100).toFixed(1), "°", 50, fixed(told.setpoint[2]), moving[2]);
  valueLane("<b>wind</b> speed", ["speed0", "speed1", "speed2"], 44, (speed) => (speed / 1000).toFixed(1), "m/s", 500, null);
  valueLane("<b>wind</b> from, off the bow", windAngles(), 44, offBow, "", 500, null);
}

async function begin() {
  head();
  if (typeof DecompressionStream === "undefined") { by("facts").textContent = "This browser is too old to show the page."; return; }
  by("span").textContent = "unpacking ..";
  decoded(await unpacked());
  lanesOfReplay();
  lanesOfWires();
  told.thrusters.forEach((_, thruster) => { if (columns[`force${thruster}`]) thrusterLane(thruster); });
  if (told.guide) AXES.forEach((_, axis) => demandLane(axis));
  watchFacts();
  findChanges();
  listen();
  const at = new URLSearchParams(location.hash.slice(1));
  if (at.has("from") && at.has("to")) show(Number(at.get("from")) || 0, Number(at.get("to")) || N);
  draw();
  go(Number(at.get("cycle")) || 0, false);
  document.documentElement.dataset.drawn = String(lanes.length);
}

begin().catch((error) => { by("facts").textContent = `The page can't be drawn: ${error.message}`; document.documentElement.dataset.failed = error.message; });
