// ---- a guide's own lanes: the demand beside its box ----

const AXES = [["surge", "kN"], ["sway", "kN"], ["yaw", "kN m"]];

/** Headings that go on past a full turn, beside the setpoint's, so that lines don't leap. */
function headingsOfGuide() {
  const near = (turn, to) => to + ((((turn - to) % 36000) + 54000) % 36000) - 18000;
  const set = column("set_heading"), on = new Float64Array(N);
  for (let cycle = 0; cycle < N; cycle++) on[cycle] = near(set[cycle], cycle ? on[cycle - 1] : told.setpoint[2]);
  columns.set_heading = on;
  for (const gyro of COMPUTERS) columns[`off${gyro}`] = column(`turn${gyro}`).map((turn, cycle) => near(turn, on[cycle]));
  return ["off0", "off1", "off2"];
}

function demandLane(axis) {
  const [name, unit] = AXES[axis], demand = series(column(`demand${axis}`)), height = 60;
  const box = told.boxes[axis].map((limit) => (axis === 2 ? limit / 1000 : limit));
  const used = (span) => (span ? Math.max(...span.map((one) => Math.round(100 * Math.abs(one) / Math.max(1, Math.abs(box[one < 0 ? 0 : 1]))))) : 0);
  lane(`<b>demand</b> ${name}`, height, () => {
    const span = extent(demand, Math.floor(view.from), Math.ceil(view.to)), spans = [span, [0, 0]];
    if (by("limits").checked) spans.push(box);
    const range = scale(spans, height, 400);
    return grid(height) + along(range, 0, "nought") + along(range, box[0], "limit") + along(range, box[1], "limit") + trace(demand, range.y, "sf", true)
      + edges(range, height, kilo, unit) + `<text class="right" x="${width - 4}" y="11">${used(span)} % of its box</text>`;
  }, "first", () => { const span = within([demand]); return span ? `from ${kilo(span[0])} to ${kilo(span[1])} ${unit} in what is shown` : "nothing in what is shown"; });
}

function guideRows() {
  const set = `${metres(column("set_north")[cursor])} m north, ${metres(column("set_east")[cursor])} m east, ${((((column("set_heading")[cursor] / 100) % 360) + 360) % 360).toFixed(2)}°`;
  const heard = ["north", "east"].map((axis) => COMPUTERS.map((i) => column(`${axis}${i}`)[cursor]).filter((one) => !Number.isNaN(one)).sort((a, b) => a - b));
  const off = heard[0].length ? Math.hypot(...["north", "east"].map((axis, at) => heard[at][heard[at].length >> 1] - column(`set_${axis}`)[cursor])) : NaN;
  return `<h3>setpoint</h3>${set}<br>the middle reference is ${Number.isNaN(off) ? "silent" : `${(off / 10000).toFixed(2)} m off it`}<h3>demand</h3><table><tr><th><th>demand<th>%`
    + AXES.map(([name, unit], axis) => {
      const demand = column(`demand${axis}`)[cursor], limit = told.boxes[axis][demand < 0 ? 0 : 1] / (axis === 2 ? 1000 : 1);
      return `<tr><td>${name}<td>${(demand / 1000).toFixed(3)} ${unit}<td>${limit ? Math.round(100 * demand / limit) : 0}`;
    }).join("") + "</table>";
}
