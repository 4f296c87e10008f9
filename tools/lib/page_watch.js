// ---- watch: what can be told from the output and the record, and what no alarm says ----

const HOLDS = 0, ZEROS = 1, PARTED = 2;

/** Where the references say that the vessel's own origin is, north and east in tenths of a mm: their levers are taken off. */
function placesAboard() {
  let heading = told.setpoint[2];
  const norths = COMPUTERS.map((i) => column(`north${i}`)), easts = COMPUTERS.map((i) => column(`east${i}`)), turns = COMPUTERS.map((i) => column(`turn${i}`));
  const levers = told.levers.some((lever) => lever[0] !== 0 || lever[1] !== 0);
  const found = COMPUTERS.map(() => [new Float64Array(N).fill(NaN), new Float64Array(N).fill(NaN)]);
  for (let cycle = 0; cycle < N; cycle++) {
    let cosine = 1, sine = 0;
    if (levers) {
      const said = turns.map((turn) => turn[cycle]).filter((turn) => !Number.isNaN(turn));
      if (said.length) heading = said[said.length >> 1];
      cosine = Math.cos(heading * Math.PI / 18000); sine = Math.sin(heading * Math.PI / 18000);
    }
    for (const i of COMPUTERS) {
      const [ahead, abeam] = told.levers[i];
      found[i][0][cycle] = norths[i][cycle] - (ahead * cosine - abeam * sine) * 10;
      found[i][1][cycle] = easts[i][cycle] - (ahead * sine + abeam * cosine) * 10;
    }
  }
  return found;
}

const middle = (a, b, c) => Math.max(Math.min(a, b), Math.min(Math.max(a, b), c));

/** How far each reference is off the middle one, in tenths of a mm, in the cycles in which all three say a place. */
function offMiddle() {
  const places = placesAboard();
  const off = COMPUTERS.map(() => new Float64Array(N).fill(NaN));
  for (let cycle = 0; cycle < N; cycle++) {
    const north = middle(places[0][0][cycle], places[1][0][cycle], places[2][0][cycle]);
    const east = middle(places[0][1][cycle], places[1][1][cycle], places[2][1][cycle]);
    if (Number.isNaN(north) || Number.isNaN(east)) continue;
    for (const i of COMPUTERS) off[i][cycle] = Math.hypot(places[i][0][cycle] - north, places[i][1][cycle] - east);
  }
  off.forEach((values, i) => { columns[`apart${i}`] = values; });
}

/** For each cycle: how many voters hold and give zero; how far each computer's orders are from the force that the others agreed on; and how far
    orders are apart where no two agreed. */
function watchOrders() {
  const counts = [0, 1, 2].map(() => new Float64Array(N)), differs = COMPUTERS.map(() => new Float64Array(N));
  told.thrusters.forEach((_, k) => {
    const ballot = column(`ballot${k}`), orders = COMPUTERS.map((c) => column(`order${k}_${c}`));
    for (let cycle = 0; cycle < N; cycle++) {
      if (ballot[cycle] === 1) counts[HOLDS][cycle]++;
      if (ballot[cycle] === 2) counts[ZEROS][cycle]++;
      let low = Infinity, high = -Infinity;
      for (const c of COMPUTERS) {
        const order = orders[c][cycle];
        if (order < low) low = order;
        if (order > high) high = order;
        if (ballot[cycle] === 0 && Math.abs(order) > differs[c][cycle]) differs[c][cycle] = Math.abs(order);
      }
      if (ballot[cycle] > 0 && high - low > counts[PARTED][cycle]) counts[PARTED][cycle] = high - low;
    }
  });
  return [counts, differs];
}

const ofVoters = (count) => `${count} of ${told.thrusters.length} voters`;
const newtons = (count) => (count >= 1000 ? `${(count / 1000).toFixed(1)} kN` : `${count} N`);
const inMetres = (tenths) => `${(tenths / 10000).toFixed(1)} m`;

/** All that is watched and comes in this run: its name, what it means, what to look at, its size by cycle (0: not there), and its words at a size. */
let watches = [];
function findWatches() {
  offMiddle();
  const [counts, differs] = watchOrders();
  const modes = COMPUTERS.map((c) => column(`mode${c}`));
  const all = [
    ["voters give zero", "no force: no two orders agreed for more than five cycles", "the computers; the thrusters stand still", counts[ZEROS], (size) => `${ofVoters(size)} give zero`],
    ["voters hold", "the last fresh force is held, for up to five cycles: no two orders agree", "the computers", counts[HOLDS], (size) => `${ofVoters(size)} hold`],
    ["no two agree", "the orders that a voter has of the computers all differ", "the computers; which of them is right can't be told", counts[PARTED],
      (size) => `no two computers agree: their orders are up to ${newtons(size)} apart`],
  ];
  for (const c of COMPUTERS) {
    all.push([`computer ${c} off`, "it takes no part: with fewer than three, the next fault isn't outvoted", "start it again and let it rejoin", modes[c].map((mode) => (mode === 2 ? 1 : 0)),
      () => `computer ${c} is off`]);
    all.push([`computer ${c} aligning`, "it waits for two equal states of the others", "it rejoins when both told it theirs", modes[c].map((mode) => (mode === 1 ? 1 : 0)),
      () => `computer ${c} is aligning`]);
    all.push([`computer ${c} differs`, "its orders differ from those that the other two agree on: it is outvoted", "that computer: its inputs, its state", differs[c],
      (size) => `computer ${c} differs from the others by up to ${newtons(size)}`]);
  }
  for (const i of COMPUTERS) {
    const off = column(`apart${i}`).map((tenths) => (tenths > told.offMm * 10 ? tenths : 0));
    all.push([`pos${i} off the middle`, `it is more than ${inMetres(told.offMm * 10)} off the middle of the three. Where two drift together, it may be the good one`,
      "all three references, and what they have in common", off, (size) => `pos${i} is ${inMetres(size)} off the middle one`]);
  }
  watches = all.filter(([, , , sizes]) => sizes.some((size) => size > 0)).map(([name, means, look, sizes, says]) => ({ name, means, look, sizes, says }));
}

const watchesAt = (cycle) => watches.filter((watch) => watch.sizes[cycle] > 0);
const alarmsAt = (cycle) => told.alarms.filter((_, number) => column(`alarm${number}`)[cycle] === 1);
