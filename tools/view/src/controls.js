"use strict";
// ---- Controls

function setTheme(theme) {
  document.documentElement.dataset.theme = theme;
  readTints();
  if (crossingNow()) { fillRows(); drawAll(); }
  drawSketch();
}

const dark = window.matchMedia("(prefers-color-scheme: dark)");
dark.addEventListener("change", () => setTheme(dark.matches ? "dark" : "light"));

function vehicleBy(way) {
  const crossing = crossingNow(), here = [...new Set([...crossing.crossingIn(stepNow(), knownNow(),
    aheadNow()).map(each => each.v), ...asking(crossing, knownNow(),
    stepNow()).map(each => each.v)])].sort((one, other) => one - other);
  if (!here.length) return;
  const at = state.chosen?.kind === "vehicle" ? here.indexOf(state.chosen.v) : -1;
  choose({ kind: "vehicle", v: here[at < 0 ? (way > 0 ? 0 : here.length - 1)
    : (at + way + here.length) % here.length] });
}

const zoomBy = factor => { state.zoom = Math.max(1, Math.min(4096, state.zoom * factor)); drawAll(); };
const paceBy = way => {
  state.pace = PACES[Math.max(0, Math.min(PACES.length - 1, PACES.indexOf(state.pace) + way))];
  state.paced = true;
  tellPace();
};

// The paces, with the steps a second that each is by the length of a step.
function tellPace() {
  [...$("pace").options].forEach((option, i) => {
    option.textContent = paceWord(PACES[i]);
    option.title = `${+(PACES[i] * 1000 / state.ms).toPrecision(3)} steps a second`;
  });
  $("pace").value = PACES.indexOf(state.pace);
  $("pace").title = `${+stepsASecond().toPrecision(3)} steps a second (, and .)`;
}

function setStepLength(ms) {
  state.ms = Math.max(1, Math.min(10000, Math.round(ms) || 20));
  if (document.activeElement !== $("ms")) $("ms").value = state.ms;
  $("seconds").step = state.ms / 1000;
  tellPace();
  if (crossingNow()) { showDetailsKept(); drawAll(); }
}

// The plan alone, as large as the window.
function setWhole(on) {
  document.body.classList.toggle("whole", on);
  $("whole").setAttribute("aria-pressed", String(on));
  $("whole").textContent = on ? "Show all" : "Whole window";
  drawAll();
}

const KEYS = {
  " ": () => play(1), b: () => play(-1), ArrowRight: event => stepBy(event.shiftKey ? 10 : 1),
    ArrowLeft: event => stepBy(event.shiftKey ? -10 : -1),
  Home: () => { stop(); setTime(state.run.first); }, End: () => { stop(); setTime(state.run.last); },
  n: () => entryBy(1), p: () => entryBy(-1), r: () => entryBy(1, true), R: () => entryBy(-1, true),
    v: () => vehicleBy(1), V: () => vehicleBy(-1),
  l: () => choose({ kind: "lane", lane: state.chosen?.kind === "lane"
    ? (state.chosen.lane + 1) % crossingNow().layout.lanes.length : 0 }),
  "+": () => zoomBy(2), "=": () => zoomBy(2), "-": () => zoomBy(.5), ".": () => paceBy(1), ",": () => paceBy(-1),
  f: () => setWhole(!document.body.classList.contains("whole")), s: () => openLink(),
  Escape: () => {
    if (document.body.classList.contains("whole")) { setWhole(false); return; }
    state.pinned = null;
    choose(null);
  },
};

document.addEventListener("keydown", event => {
  if (event.ctrlKey || event.metaKey || event.altKey || document.querySelector("dialog[open]")) return;
  const tag = event.target.tagName, { type } = event.target, slides = type === "range";
  if (tag === "SELECT" || tag === "TEXTAREA" || (tag === "INPUT" && type !== "checkbox" && !slides)) return;
  if (event.key === "o") { event.preventDefault(); $("files").click(); return; }
  if (event.key === "t") { $("theme").click(); return; }
  if (event.key === "?") { $("keys").showModal(); return; }
  if (event.key === "e") { event.preventDefault(); setDrafting(!drafting()); return; }
  if (!state.run || drafting() || (event.key === " " && (tag === "BUTTON" || (tag === "INPUT" && !slides)))) return;
  if (slides && /^(Arrow|Home|End)/.test(event.key)) return;
  if (KEYS[event.key]) { event.preventDefault(); KEYS[event.key](event); }
});

plan.addEventListener("keydown", event => {
  const { n } = crossingNow().layout, move = { ArrowLeft: [0, -1], ArrowRight: [0, 1], ArrowUp: [1, 0],
    ArrowDown: [-1, 0] }[event.key];
  if (event.ctrlKey || event.metaKey || event.altKey) return;
  if (event.key === "Enter" && state.tile !== null) choose({ kind: "tile", tile: state.tile });
  else if (move) {
    const row = state.tile === null ? n >> 1 : Math.floor(state.tile / n) + move[0],
      col = state.tile === null ? n >> 1 : state.tile % n + move[1];
    state.tile = Math.max(0, Math.min(n - 1, row)) * n + Math.max(0, Math.min(n - 1, col));
    const word = `row ${Math.floor(state.tile / n)}, column ${state.tile % n}`, holder = view.holders[state.tile];
    drawNow();
    $("under").textContent = `${word}${holder >= 0 ? `: vehicle ${holder}` : ""}`;
  } else return;
  event.preventDefault();
  event.stopPropagation();
});
plan.addEventListener("click", event => {
  stop();
  const box = plan.getBoundingClientRect();
  choose(pickPlan(event.clientX - box.left, event.clientY - box.top));
});
plan.addEventListener("focus", drawAll);
plan.addEventListener("blur", drawAll);

// On the timeline a press moves the time; on a row, the nearest entry of it is chosen.
function pressTime(event, choosing) {
  const box = band.getBoundingClientRect(), x = event.clientX - box.left,
    row = timed.rows[Math.floor((event.clientY - box.top) / HIGH())], crossing = crossingNow(), { journal } = crossing;
  const step = timed.from + x / timed.wide * (timed.to - timed.from) - .5,
    near = (timed.to - timed.from) / timed.wide * 8;
  if (choosing && row) {
    const extra = crossing.extra.filter(each => each.row === row.row &&
      Math.abs(each.step - step) <= near).sort((one, other) => Math.abs(one.step - step) - Math.abs(other.step - step))[0];
    if (extra) { setTime(extra.step, true); choose({ kind: "vehicle", v: extra.v }); return; }
    let best = -1;
    for (let i = crossing.knownAt(Math.floor(step - near) - 1); i < journal.count &&
      journal.$now[i] <= step + near; i++)
      if ((journal.$row[i] === row.row || (row.row === ROW.asks && journal.$act[i] <= CHANGE)) &&
        (best < 0 || Math.abs(journal.$now[i] - step) < Math.abs(journal.$now[best] - step))) best = i;
    if (best >= 0 && Math.abs(journal.$now[best] - step) <= near) { chooseEntry(best); return; }
  }
  stop();
  setTime(Math.max(0, Math.round(step)));
}
for (const canvas of [band, axis]) {
  canvas.addEventListener("pointerdown", event => {
    canvas.setPointerCapture(event.pointerId);
    pressTime(event, canvas === band);
  });
  canvas.addEventListener("pointermove", event => {
    if (event.buttons & 1 && Math.abs(event.movementX) > 0) pressTime(event, false);
  });
}

for (const [id, act] of [["play", () => play(1)], ["backplay", () => play(-1)], ["on", () => stepBy(1)],
  ["back", () => stepBy(-1)], ["first", KEYS.Home], ["final", KEYS.End],
  ["before", () => entryBy(-1)], ["after", () => entryBy(1)], ["wider", () => zoomBy(.5)], ["closer", () => zoomBy(2)],
    ["help", () => $("keys").showModal()], ["open", () => $("files").click()],
  ["theme", () => setTheme(document.documentElement.dataset.theme === "dark" ? "light"
    : "dark")]]) $(id).addEventListener("click", act);
$("slide").addEventListener("input", event => { stop(); setTime(+event.target.value); });
$("step").addEventListener("change", event => { stop(); setTime(+event.target.value || 0); });
PACES.forEach((_, i) => $("pace").append(make("option", { value: i })));
$("pace").addEventListener("change", event => { state.pace = PACES[event.target.value]; state.paced = true; });
$("ms").addEventListener("input", event => { if (event.target.value) setStepLength(+event.target.value); });
$("ms").addEventListener("change", () => { $("ms").value = state.ms; });
$("seconds").addEventListener("change", event => { stop(); setTime(Math.round(event.target.value * 1000 / state.ms) || 0); });
$("whole").addEventListener("click", () => setWhole(!document.body.classList.contains("whole")));
setStepLength(state.ms);
for (const [layer, word, sign] of LAYERS) {
  const input = make("input", { type: "checkbox", id: "layer-" + layer });
  input.checked = state.layers[layer];
  input.addEventListener("change", () => { state.layers[layer] = input.checked; drawAll(); });
  const swatch = make("span", { class: "swatch", "aria-hidden": "true" });
  swatch.innerHTML = `<svg viewBox="0 0 16 16" width="16" height="16">${sign}</svg>`;
  $("layers").append(make("label", {}, input, swatch, word));
}
$("files").addEventListener("change", event => { takeFiles(event.target.files); });
for (const kind of ["dragenter", "dragover"]) document.addEventListener(kind, event => {
  event.preventDefault();
  document.body.classList.add("over");
});
document.addEventListener("dragleave", event => { if (!event.relatedTarget) document.body.classList.remove("over"); });
document.addEventListener("drop", event => {
  event.preventDefault();
  document.body.classList.remove("over");
  if (event.dataTransfer.files.length) takeFiles(event.dataTransfer.files);
});
window.addEventListener("resize", drawAll);
new ResizeObserver(drawAll).observe(plan);
window.addEventListener("hashchange", takeHash);
window.addEventListener("error", event => {
  tellFaults([new Fault("this page", 0, null, `it failed: ${event.message}`)], []);
});

document.addEventListener("paste", event => {
  if (/^(INPUT|TEXTAREA)$/.test(event.target.tagName)) return;
  event.preventDefault();
  takePasted(event.clipboardData.getData("text/plain"));
});
for (const [id, act] of [["link", openLink], ["copy", copyLink]]) $(id).addEventListener("click", act);

offerSamples();
setTheme(dark.matches ? "dark" : "light");
const ready = (async () => {
  const given = JSON.parse($("given").textContent);
  if (given) await take(given);
  await takeHash();
})();
