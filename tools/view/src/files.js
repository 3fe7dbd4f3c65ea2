"use strict";
// ---- Files

const texts = { script: null, output: null };
let loading = 0;

function tellFaults(faults, notes) {
  const box = $("told"), away = item => {
    const button = make("button", { class: "away", "aria-label": "Away with it", title: "Away with it" });
    button.addEventListener("click", () => { item.remove(); drawAll(); drawSketch(); });
    item.prepend(button);
    return item;
  };
  box.replaceChildren();
  for (const fault of faults) {
    const item = make("div", { class: "fault" }, make("b", {},
      fault.line ? `${fault.text}, line ${fault.line}: ` : `${fault.text}: `),
      fault.message.slice(fault.message.indexOf(": ", fault.text.length) + 2), ".");
    if (fault.shown) item.append(make("pre", { class: "mono" }, fault.shown));
    if (fault.line > 1) item.append(make("p", { style: "margin: .3rem 0 0" }, "What stands before it is shown."));
    box.append(away(item));
  }
  if (notes.length) box.append(away(make("div", { class: "note" }, notes[0],
    ...(notes[1] ? [make("pre", { class: "mono" }, notes[1])] : []))));
}

const bar = share => {
  $("progress").hidden = share === null;
  $("progress").firstElementChild.style.width = `${Math.round((share ?? 0) * 100)}%`;
  $("progress").setAttribute("aria-valuenow", Math.round((share ?? 0) * 100));
};

// The greatest file that is read, in bytes: a script and a journal of as many lines as there may be are smaller.
const GREATEST = 268435456;

// What is wrong with a text that is neither a script nor an output.
function strangeText({ name, text }) {
  if (text === "") return new Fault(name, 0, null, "it is empty");
  const line = text.slice(0, text.indexOf("\n") < 0 ? 200 : Math.min(200, text.indexOf("\n")));
  if (/[\0-\x08\x0e-\x1f\ufffd]/.test(text.slice(0, 4096)))
    return new Fault(name, 0, null, "it isn't text, so it is neither a script nor what `aim` prints");
  return new Fault(name, 1, line,
    "this is neither a script, which begins with `aim N` or `crossings N`, nor what `aim` prints for one");
}

// Sorts texts into the script and the output that are shown; the faults of those that are neither.
function sortTexts(given) {
  const faults = [], kinds = given.map(({ text }) => kindOfText(text));
  given.forEach(({ name, text }, i) => {
    if (!kinds[i]) { faults.push(strangeText({ name, text })); return; }
    if (kinds[i] === "script" && !kinds.includes("output") && texts.script) texts.output = null;
    texts[kinds[i]] = { name, text };
  });
  return { faults, fresh: kinds.some(Boolean) };
}

// Takes texts with names: scripts and outputs, told apart by their first lines.
async function take(given) {
  const turn = ++loading, gone = () => turn !== loading;
  stop();
  const { faults, fresh } = sortTexts(given);
  if (!fresh) { tellFaults(faults, []); return; }
  $("names").textContent = [texts.script?.name ?? "no script yet", texts.output?.name].filter(Boolean).join(" · ");
  document.title = `aim: ${texts.script?.name ?? "a run"}`;
  const part = from => new Steady(share => bar((from + share) / 3));
  const script = texts.script && await readAny(readScript, texts.script, part(0));
  if (gone()) return;
  const output = texts.output && await readAny(readOutput, texts.output, part(1));
  if (gone()) return;
  if (!script) {
    bar(null);
    tellFaults(output.fault ? [output.fault, ...faults] : faults,
      ["The output is read. Open its script, too: the layout stands there."]);
    return;
  }
  const run = await new Run(script, output).settle(part(2));
  if (gone()) return;
  bar(null);
  tellFaults([...run.faults, ...faults], run.mismatch ? [] : run.notes);
  show(run);
}

// A text of words is read as it is; one of JSON lines as the words that these say.
async function readAny(read, { name, text }, steady) {
  if (!isJson(text)) return read(text, name, steady);
  const { words, fault } = await wordsOfJson(text, name, steady), found = await read(words, name, steady);
  if (fault && !(found.fault && found.fault.line < fault.line)) found.fault = fault;
  else if (found.fault?.shown) found.fault.shown = lineAt(text, found.fault.line);
  if (found.fault) { found.ended = null; found.whole = false; }
  return found;
}

function show(run) {
  state.run = run.crossings.length ? run : null;
  setDrafting(false);
  if (!state.run) return;
  const { first, last } = run;
  Object.assign(state, { at: 0, time: first, pinned: null, chosen: null, row: null, zoom: 1, tile: null,
    place: undefined });
  // What is short is shown slowly, until a pace is chosen.
  if (!state.paced) state.pace = (last - first) * state.ms < 5000 ? 1 / 5 : 1;
  tellPace();
  for (const id of ["slide", "step"]) Object.assign($(id), { min: first, max: last });
  const box = $("crossings");
  box.replaceChildren();
  if (run.crossings.length > 1) run.crossings.forEach((_, at) => {
    const button = make("button", { "aria-pressed": String(at === 0) }, `Crossing ${at}`);
    button.addEventListener("click", () => setCrossing(at));
    box.append(button);
  });
  list.scrollTop = 0;
  setCrossing(0);
  readHash();
}

async function textOf(file) {
  if (file.size > GREATEST) throw new Error(`it has ${file.size} bytes, and at most ${GREATEST} are read`);
  return { name: file.name, text: await file.text() };
}

async function takeFiles(files) {
  try { await take(await Promise.all([...files].map(textOf))); }
  catch (error) {
    bar(null);
    tellFaults([new Fault([...files].map(file => file.name).join(", "), 0, null, `it can't be read: ${error.message}`)], []);
  }
}

// The runs that the empty page offers.
function offerSamples() {
  for (const { word, place, texts: given } of JSON.parse($("samples").textContent)) {
    const button = make("button", {}, word);
    button.addEventListener("click", async () => {
      setHash(place);
      await take(given);
      setHash("");
    });
    $("offered").append(button);
  }
}
