"use strict";
// ---- What the form is opened with, what it hands out, and its controls.

const ROADS = {
  "four roads, a lane each": { counts: [1, 1, 1, 1] }, "four roads, three lanes each": { counts: [3, 3, 3, 3] },
  "four roads, two lanes each": { counts: [2, 2, 2, 2] }, "a T": { counts: [1, 1, 1, 0] },
  "two one-way roads": { counts: [1, 1, 0, 0], oneway: true },
};
const POLICIES = [{ name: "plain", kind: "fcfs", phases: [] }, { name: "siren", kind: "emerg", phases: [] },
  { name: "lights", kind: "light", phases: [] }];

// The fields of roads: lanes from each side, the lanes' width, the corners' room, the side of driving, one way or both.
function roadField(id, name, unit, value, most) {
  const input = make("input", { type: "number", id, min: 0, max: most, value });
  return make("label", { class: "field" }, make("span", {}, name), input, make("span", { class: "soft" }, unit));
}
const hand = choice(["right", "left"], "right", "one drives on the", () => {});
hand.id = "roadhand";
$("roadfields").append(...SIDES.map(side => roadField(`road-${side}`, side, "lanes", 1, 3)),
  roadField("roadwide", "lane width", "mm", 3000, 20000), roadField("roadroom", "corners", "mm", 3000, 100000),
  make("label", { class: "field" }, make("span", {}, "one drives"), hand),
  make("label", {}, make("input", { type: "checkbox", id: "oneway" }), " one-way, straight on"));

// A draft of roads by the fields of the form.
function roadsNow() {
  const number = id => Math.max(0, Math.round(+$(id).value) || 0);
  return { counts: SIDES.map(side => Math.min(3, number(`road-${side}`))), wide: Math.max(500, number("roadwide")),
    room: number("roadroom"), oneway: $("oneway").checked, right: $("roadhand").value === "right" };
}

function makeRoads() {
  if (drafted.draft) keepUndo();
  const roads = roadsNow(), old = drafted.draft ?? { ...START, lanes: [], policies: POLICIES };
  drafted.draft = draftOfRoads(roads, { ...old, policies: old.policies.length ? old.policies : POLICIES });
  drafted.draft.half = Math.max(drafted.draft.half, Math.ceil(drafted.vehicle.width / 2) + old.spacing + old.fixed);
  drafted.picked = drafted.draft.lanes.length ? { lane: 0, move: 0 } : null;
  return changed(true);
}

// Takes a head's text: the draft is what it says, as far as it has no fault.
async function takeHead(text) {
  const script = await readScript(text.endsWith("\n") ? text : text + "\n", "the head", new Steady(() => {}));
  if (!script.crossings.length) return false;
  if (drafted.draft) keepUndo();
  drafted.draft = draftOf(script);
  drafted.picked = firstMove();
  return true;
}

function firstMove() {
  const lane = drafted.draft.lanes.findIndex(each => each.moves.length);
  return lane < 0 ? null : { lane, move: 0 };
}

// The text field is a head of its own while it is written in: what is faulty in it stays, and is told. Of a whole script
// the head is taken.
async function typedHead() {
  const typed = $("headtext").value, end = typed.search(/^vehicles /m);
  if (end > 0) $("headtext").value = typed.slice(0, end);
  const text = $("headtext").value.replace(/\n*$/, "\n");
  await takeHead(text);
  drafted.text = text;
  await readDraft();
  fillForm();
  drawSketch();
  tellSoon();
}

function undo() {
  const before = drafted.undo.pop();
  if (!before) return;
  drafted.draft = before;
  if (!pickedMove()) drafted.picked = null;
  changed(true);
}

// A link that has the head inside, and opens the form with it.
function linkDraft() {
  return openLinkTo(new URLSearchParams({ draft: 1, ms: state.ms }), [{ name: "drawn layout", text: drafted.text }]);
}

// A script that tries each move by a request of the vehicle, one after the other.
function trialText() {
  const layout = layoutNow(), { speed, max, accel, width } = drafted.vehicle, events = [];
  let moment = 0;
  for (const lane of layout.lanes)
    for (const [turn, path] of Object.entries(lane.moves)) {
      const { needs } = tilesOf(layout, path, drafted.vehicle);
      events.push(`${events.length} ${moment} request 1 ${lane.at} ${turn} ${moment + layout.edge + 1} ${speed} ${max} ` +
        `${accel} ${needs.length} ${width} car`);
      moment += Math.max(1, needs.reach) + layout.edge + layout.late + 1;
    }
  return [...draftLines(drafted.draft), `vehicles ${Math.max(1, events.length)}`, "begin", ...events, "end", ""].join("\n");
}

async function copyText(text, told) {
  const area = $("headtext");
  try { await navigator.clipboard.writeText(text); }
  catch {
    const before = area.value;
    area.value = text;
    area.select();
    document.execCommand("copy");
    area.value = before;
  }
  $("copied").textContent = told;
  setTimeout(() => { $("copied").textContent = ""; }, 4000);
}

// Opens the form, or goes back to the run, or to the empty page. At first it has the layout of the run, else roads.
function setDrafting(on) {
  drafted.on = on;
  if (on) stop();
  $("empty").hidden = on || Boolean(state.run);
  $("shown").hidden = on || !state.run;
  $("drafter").hidden = !on;
  $("link").hidden = on || !state.run;
  $("draft").setAttribute("aria-pressed", String(on));
  document.body.classList.toggle("bare", !on && !state.run);
  document.body.classList.toggle("drafting", on);
  if (on && drafted.of !== (state.run?.script ?? null)) {
    drafted.of = state.run?.script ?? null;
    return openDraft();
  }
  if (on) { fillForm(); drawSketch(); tellSoon(); }
  else if (state.run) drawAll();
  return null;
}

async function openDraft() {
  const { script } = state.run ?? {};
  if (script?.crossings[state.at]) {
    if (drafted.draft) keepUndo();
    drafted.draft = draftOf({ crossings: [script.crossings[state.at]] });
    drafted.picked = firstMove();
    await changed(true);
  } else if (!drafted.draft) await makeRoads();
}

for (const [name, { counts, oneway = false }] of Object.entries(ROADS)) $("roads").append(press(name, () => {
  SIDES.forEach((side, i) => { $(`road-${side}`).value = counts[i]; });
  $("oneway").checked = oneway;
  makeRoads();
}));
$("makeroads").addEventListener("click", makeRoads);
$("headtext").addEventListener("input", () => {
  clearTimeout(typedHead.waits);
  typedHead.waits = setTimeout(typedHead, 250);
});
$("copyhead").addEventListener("click", () => copyText(drafted.text, "The head is copied."));
$("copytrial").addEventListener("click", () => {
  if (layoutNow()) copyText(trialText(), "A script that tries each move is copied.");
});
$("showhead").addEventListener("click", () => {
  texts.output = null;
  take([{ name: "drawn layout", text: drafted.text }]);
});
$("undo").addEventListener("click", undo);
$("linkhead").addEventListener("click", linkDraft);
$("snap").addEventListener("change", event => { drafted.snap = Math.max(1, +event.target.value || 1); });
$("bodyat").addEventListener("input", event => { drafted.at = event.target.value / 1000; drawSketch(); });
for (const layer of Object.keys(drafted.layers)) $(`sketch-${layer}`).addEventListener("change", event => {
  drafted.layers[layer] = event.target.checked;
  drawSketch();
});
for (const id of ["draft", "draftplain"]) $(id).addEventListener("click", () => setDrafting(!drafting()));
new ResizeObserver(drawSketch).observe(sketch);
