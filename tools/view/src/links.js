"use strict";
// ---- Links: the address says what is shown, and may have the run itself.

// The greatest link that has the run inside, in characters.
const LONGEST_LINK = 60000, LONGEST_RUN = 8388608;

// A number that tells texts apart (FNV-1a of their beginnings, with their lengths).
function markOf(given) {
  let mark = 2166136261;
  for (const { text } of given)
    for (const part of [String(text.length), text.slice(0, 1048576)])
      for (let i = 0; i < part.length; i++) mark = Math.imul(mark ^ part.charCodeAt(i), 16777619);
  return (mark >>> 0).toString(16);
}

const textsNow = () => [texts.script, texts.output].filter(Boolean);

// Puts something behind the address's #, without a step back to what stood there.
const setHash = hash => history.replaceState(null, "", `${location.href.split("#")[0]}${hash ? "#" + hash : ""}`);

// What the address says of the moment: what is shown, the length of a step, and the run that it is of.
function placeNow() {
  const { chosen } = state, said = new URLSearchParams(), row = ROWS[state.row]?.key;
  if (state.run.crossings.length > 1) said.set("crossing", state.at);
  if (chosen?.kind === "entry") said.set("entry", chosen.i);
  else said.set("step", +state.time.toFixed(2));
  if (chosen?.kind === "vehicle") said.set("vehicle", chosen.v);
  if (chosen?.kind === "lane") said.set("lane", chosen.lane);
  if (chosen?.kind === "tile") {
    const { n } = crossingNow().layout;
    said.set("tile", `${Math.floor(chosen.tile / n)},${chosen.tile % n}`);
  }
  if (row) said.set("row", row);
  if (state.zoom > 1) said.set("zoom", state.zoom);
  said.set("ms", state.ms);
  const changed = shown => Object.keys(state.layers).filter(layer => state.layers[layer] === shown &&
    (layer === "lanes") === shown).join(",");
  if (changed(false)) said.set("hide", changed(false));
  if (changed(true)) said.set("show", changed(true));
  if (document.body.classList.contains("whole")) said.set("whole", 1);
  said.set("of", textsNow().map(each => each.name).join(","));
  said.set("mark", markOf(textsNow()));
  return said;
}

// Bytes through a stream of the browser's own, which packs or unpacks them; a fault where there are too many.
async function through(bytes, stream, most) {
  const reader = new Blob([bytes]).stream().pipeThrough(stream).getReader(), pieces = [];
  for (let total = 0; ;) {
    const { done, value } = await reader.read();
    if (done) return new Blob(pieces).arrayBuffer();
    if ((total += value.length) > most) throw new Error("too long");
    pieces.push(value);
  }
}

// Texts as a word of an address, and back: JSON, deflated, in base64 whose signs may stand there.
async function packed(given) {
  const bytes = new Uint8Array(await through(new TextEncoder().encode(JSON.stringify(given)),
    new CompressionStream("deflate-raw"), LONGEST_RUN));
  let word = "";
  for (let at = 0; at < bytes.length; at += 8192) word += String.fromCharCode(...bytes.subarray(at, at + 8192));
  return btoa(word).replaceAll("+", "-").replaceAll("/", "_").replaceAll("=", "");
}

async function unpacked(word) {
  const bytes = Uint8Array.from(atob(word.replaceAll("-", "+").replaceAll("_", "/")), sign => sign.charCodeAt(0));
  const given = JSON.parse(new TextDecoder().decode(await through(bytes, new DecompressionStream("deflate-raw"),
    LONGEST_RUN)));
  if (!Array.isArray(given) || !given.every(({ name, text }) => typeof name === "string" && typeof text === "string"))
    throw new Error("not texts");
  return given;
}

// The run as a word of the address, or null where it would be too long, or the browser can't pack it.
async function runWord(given) {
  if (given.reduce((sum, { text }) => sum + text.length, 0) > LONGEST_RUN) return null;
  try {
    const word = await packed(given);
    return word.length <= LONGEST_LINK ? word : null;
  } catch { return null; }
}

async function openLink() {
  if (!state.run) return;
  stop();
  await openLinkTo(placeNow(), textsNow());
}

async function openLinkTo(said, given) {
  const word = await runWord(given), box = $("inside"), base = location.href.split("#")[0];
  box.disabled = word === null;
  box.checked = word !== null;
  $("insideword").textContent = word === null ? "with the run inside: it is too long for a link" : "with the run inside";
  const tell = () => {
    const link = `${base}#${said}${box.checked ? "&run=" + word : ""}`;
    $("linktext").value = link;
    $("linkword").textContent = `${link.length} characters. ` + (box.checked ? "" :
      "Who opens it needs the same files, too. ") + "The page itself is one file: another copy of it shows the same " +
      "behind #, and so does the link pasted into an open page.";
  };
  box.onchange = tell;
  tell();
  $("linked").showModal();
  $("linktext").select();
}

async function copyLink() {
  $("linktext").select();
  try { await navigator.clipboard.writeText($("linktext").value); } catch { document.execCommand("copy"); }
  $("linkword").textContent = "It is copied.";
}

// A run that stands in the address is shown; else a link's run is named where no run is open yet.
async function takeHash() {
  const said = new URLSearchParams(location.hash.slice(1)), word = said.get("run");
  if (!word) {
    if (!state.run && said.get("of")) tellFaults([], [`This link is of ${said.get("of").replaceAll(",", " and ")}: open ` +
      "these files, and what it shows is shown."]);
    readHash();
    return;
  }
  try { await take(await unpacked(word)); }
  catch { tellFaults([new Fault("this link", 0, null, "the run in it can't be read: it is cut, or was changed")], []); }
}

// The form of a layout, as the address says: with a vehicle that is tried on a move.
async function showDraft(name, move) {
  if (name in VEHICLES) Object.assign(drafted.vehicle, VEHICLES[name]);
  await setDrafting(true);
  if (drafted.draft.lanes[move?.[0]]?.moves[move[1]]) pickMove({ lane: move[0], move: move[1] });
}

// What the address says: #step=14&vehicle=0, tile=ROW,COL, entry=N, lane=N, crossing=N, zoom=N, row=taken, ms=20, theme=dark.
function readHash() {
  const said = new URLSearchParams(location.hash.slice(1)),
    numbers = name => said.has(name) ? said.get(name).split(",").map(Number) : null;
  if (["dark", "light"].includes(said.get("theme"))) setTheme(said.get("theme"));
  if (+said.get("ms") >= 1) setStepLength(+said.get("ms"));
  if (said.get("draft") === "1") { showDraft(said.get("try"), numbers("move")); return; }
  if (!state.run) return;
  if (said.has("mark") && said.get("mark") !== markOf(textsNow())) {
    if (textsNow().length < (said.get("of") ?? "").split(",").length) return;
    tellFaults([...state.run.faults], ["The link was made for other texts than these, so it isn't followed."]);
    setHash("");
    return;
  }
  const at = numbers("crossing")?.[0];
  if (state.run.crossings[at]) setCrossing(at);
  if (said.has("zoom")) state.zoom = Math.max(1, Math.min(4096, +said.get("zoom") || 1));
  for (const [name, is] of [["hide", false], ["show", true]])
    for (const layer of (said.get(name) ?? "").split(",")) if (layer in state.layers) {
      state.layers[layer] = is;
      $("layer-" + layer).checked = is;
    }
  if (said.has("whole")) setWhole(said.get("whole") === "1");
  if (said.has("step")) setTime(+said.get("step") || 0);
  if (said.get("row") in ROW) { state.row = ROW[said.get("row")]; fillRows(); fillList(); }
  readChosen(said, numbers);
  drawAll();
}

function readChosen(said, numbers) {
  const { layout } = crossingNow();
  if (said.has("entry")) chooseEntry(numbers("entry")[0]);
  else if (said.has("vehicle")) choose({ kind: "vehicle", v: numbers("vehicle")[0] });
  else if (said.has("lane") && layout.lanes[numbers("lane")[0]]) choose({ kind: "lane", lane: numbers("lane")[0] });
  else if (said.has("tile")) {
    const [row, col] = numbers("tile");
    if (row >= 0 && col >= 0 && row < layout.n && col < layout.n) choose({ kind: "tile", tile: row * layout.n + col });
  }
}

// What is pasted: a link's words, or the text of a script or an output.
async function takePasted(text) {
  const hash = /^\S*#(\S*(?:step|entry|run)=\S*)$/.exec(text.trim())?.[1];
  if (hash) { setHash(hash); await takeHash(); }
  else if (text.trim()) await take([{ name: `pasted ${kindOfText(text) ?? "text"}`, text }]);
}
