// ---- on paper ----

const PAPERS = { portrait: 568, landscape: 896 };      // pixels that a lane's drawing has on A4, within margins of 12 mm and beside its label

/** All lanes, drawn for a paper's width. */
function sheet(name, wide) {
  const before = width;
  width = wide;
  const rows = lanes.map((one) => {
    const left = x(cursor), cell = one.marks || cursor < view.from || cursor >= view.to ? "" : `<path class="cursor" d="M${short(left)} 0V${one.height}"/>`;
    return `<div class="lane ${one.kind}"><h2>${one.label}</h2><svg viewBox="0 0 ${wide} ${one.height}">${one.draw()}${cell}</svg></div>`;
  });
  width = before;
  return `<div class="sheet ${name}">${rows.join("")}</div>`;
}

function alarmTable() {
  const rows = watches.map((watch) => ["watch", watch.name, lastingFor(watch.found), watch.means, watch.look]).concat(told.alarms.map(([name, means, look], number) => {
    const raised = column(`alarm${number}`);
    return ["alarm", name, lastingFor(runs((cycle) => raised[cycle] === 1)), means, look];
  }));
  if (!rows.length) return "<p>No alarm, and nothing to watch, in the whole run.</p>";
  return `<h3>Alarms and what to watch, in the whole run</h3><table class="meanings"><thead><tr><th>Line<th>Comes in<th>Means<th>Look at</thead><tbody>`
    + rows.map(([kind, name, lasts, means, look]) => `<tr><td><b class="${kind}word">${kind}</b> ${escaped(name)}<td>${lasts}<td>${escaped(means)}<td>${escaped(look)}`).join("") + "</tbody></table>";
}

/** Draws the run anew for the paper, upright and across: the style shows the one that fits. */
function beforePrint() {
  by("paper").innerHTML = `<p>${shown()}; the numbers are of cycle ${cursor}.</p>` + Object.entries(PAPERS).map(([name, wide]) => sheet(name, wide)).join("")
    + alarmTable() + `<ul class="legend">${document.querySelector("details .legend").innerHTML}</ul><div class="numbers">${by("reading").innerHTML.replace(/ id="away"/, "")}</div>`;
}

function printing() {
  window.addEventListener("beforeprint", beforePrint);
  window.addEventListener("afterprint", () => { by("paper").innerHTML = ""; });
}
