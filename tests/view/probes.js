// What the tests ask of the page: these functions are put into it, and use its own.
"use strict";

// The tiles that the page shades under vehicles, step by step: for "VEHICLE TILE" the steps.
function drawnUnder(at, from, to) {
  const found = {};
  setCrossing(at);
  for (const layer of ["names", "paths", "reserved", "greens"]) state.layers[layer] = false;
  for (let step = Math.max(0, from); step <= to; step++) {
    Object.assign(state, { pinned: null, time: step });
    drawPlan();
    for (const [v, tiles] of view.under) for (const tile of tiles) (found[`${v} ${tile}`] ??= []).push(step);
  }
  return [crossingNow().layout.n, found];
}

// One sign for each tile, the north row first, as a chart has them.
function chartOf(sign) {
  const { n } = crossingNow().layout, rows = [];
  for (let row = n - 1; row >= 0; row--)
    rows.push(Array.from({ length: n }, (_, col) => sign(row, col, row * n + col)).join(""));
  return rows.join("\n");
}

// The tiles that the page draws as reserved and as claimed in a step, all entries known.
function drawnChart(step) {
  setTime(step);
  state.pinned = { step, known: crossingNow().journal.count, entry: -1, named: null };
  drawPlan();
  return chartOf((row, col, tile) => view.holders[tile] >= 0 ? "#" : view.claimed?.[tile] ? "g" : ".");
}

// The colour near the upper right corner of each tile, where no path, number or body of the small crossing is.
function paintedChart() {
  const { tile } = crossingNow().layout, pen = plan.getContext("2d");
  return chartOf((row, col) => {
    const x = (view.x((col + 1) * tile) - 6) * view.ratio, y = (view.y((row + 1) * tile) + 6) * view.ratio;
    const colours = pen.getImageData(Math.round(x), Math.round(y), 1, 1).data;
    return colours.slice(0, 3).every(part => part === 255) ? "." : "#";
  });
}

// The letters of each vehicle of each crossing: vehicle, way, text, and the steps in which they are due.
function lettersDue() {
  return state.run.crossings.map(crossing => [...crossing.letters.values()].flat()
    .map(({ v, way, text, due }) => [v, way, text, due]));
}

// The place in the window of a point of the plan, by row and column.
function placeOf(row, col) {
  const box = plan.getBoundingClientRect(), { tile } = crossingNow().layout;
  return [box.x + view.x((col + .5) * tile), box.y + view.y((row + .5) * tile)];
}

// The place in the window of a step in a row of the timeline.
function placeInTime(key, step) {
  band.scrollIntoView({ block: "center" });
  const box = band.getBoundingClientRect(), place = timed.rows.findIndex(row => row.key === key);
  return [box.x + (step - timed.from + .5) / (timed.to - timed.from) * timed.wide, box.y + (place + .5) * HIGH()];
}

function drop(texts) {
  const dataTransfer = new DataTransfer();
  for (const [name, text] of texts) dataTransfer.items.add(new File([text], name));
  document.dispatchEvent(new DragEvent("drop", { dataTransfer, bubbles: true }));
}

// Every beginning of a text that isn't told as a fault in its last line, or behind it, and isn't a head alone.
async function untoldCuts(text, read) {
  const found = [];
  for (let cut = 1; cut < text.length; cut++) {
    const part = text.slice(0, cut), lines = part.split("\n").length - (part.endsWith("\n") ? 1 : 0);
    const { fault, head } = await read(part, "cut", new Steady(() => {}));
    if (head && !fault && part.endsWith("\n") && !part.includes("begin")) continue;
    if (!fault || (fault.line !== lines && fault.line !== lines + 1)) found.push([cut, fault && fault.message]);
  }
  return found;
}

// Changes bytes of both texts at places without a pattern: a fault is told, or none, and nothing else may be thrown.
async function thrownByChanges(script, output, count) {
  const found = [], letters = "0123456789 -abeglstx.#\n", steady = new Steady(() => {});
  let word = 12345;
  const next = below => {
    word = (word * 1103515245 + 12345) % 2147483648;
    return (word >> 8) % below;
  };
  const change = text => {
    const at = next(text.length);
    return text.slice(0, at) + letters[next(letters.length)] + text.slice(at + next(3));
  };
  for (let i = 0; i < count; i++) {
    const texts = i % 3 ? [script, change(output)] : [change(script), output];
    try {
      const read = [await readScript(texts[0], "s", steady), await readOutput(texts[1], "o", steady)];
      const run = await new Run(...read).settle(steady);
      if (run.faults.some(fault => !fault.message)) found.push([i, "no message"]);
      if (i % 4 === 0) lookAt(run);
    } catch (error) {
      found.push([i, String(error.stack).slice(0, 300)]);
    }
  }
  return found;
}

function lookAt(run) {
  show(run);
  for (const time of state.run ? [run.first, run.last] : []) {
    setTime(time);
    drawNow();
    entryBy(1);
    showDetails();
    drawNow();
  }
}

// Draws at twenty times from the first step to the last.
function lookThrough() {
  const { first, last } = state.run;
  for (const layer in state.layers) state.layers[layer] = true;
  for (let i = 0; i < 20; i++) {
    setTime(first + (last - first) * i / 20);
    drawNow();
  }
}

// The longest time between two frames while something goes on.
function watchFrames() {
  const seen = window.frames_seen = { most: 0, on: true };
  let before = performance.now();
  const tick = now => {
    seen.most = Math.max(seen.most, now - before);
    before = now;
    if (seen.on) requestAnimationFrame(tick);
  };
  requestAnimationFrame(now => { before = now; tick(now); });
}

function longestFrame() {
  window.frames_seen.on = false;
  return Math.round(window.frames_seen.most);
}

// The milliseconds that a fixed piece of work takes just now: some 70 where nothing else runs.
function workTime() {
  const begun = performance.now();
  let sum = 0;
  for (let k = 0; k < 4e6; k++) sum = (sum + k * k) % 1000003;
  return sum < 0 ? 0 : performance.now() - begun;
}

// All entries of the crossing that is shown, by their numbers: from JSON lines they are those of the words.
function journalNow() {
  const { journal } = crossingNow();
  return Array.from({ length: journal.count }, (_, i) => Object.keys(BLANK).map(name => journal["$" + name][i]).join(" "));
}

// Whether something stands on the plan's canvas besides its ground's colour.
function isDrawn() {
  drawNow();
  const { data } = plan.getContext("2d").getImageData(0, 0, plan.width, plan.height);
  let other = 0;
  for (let i = 0; i < data.length; i += 4) if (data[i] !== data[0] || data[i + 1] !== data[1]) other++;
  return other > 500;
}

// Numbers that meet another or a sign, that stand outside of the plan, or that are missing; at some times of the run.
function wrongLabels() {
  const found = [], { first, last } = state.run;
  for (let i = 0; i <= 12; i++) {
    setTime(first + (last - first) * i / 12);
    drawPlan();
    const { labels } = view, { drawn } = labels, { left, top } = plan.getBoundingClientRect();
    const over = [...$("planbar").children, $("layers")].map(each => each.getBoundingClientRect());
    for (const { x, y, wide, high, word } of drawn)
      if (over.some(box => box.width && Math.abs(box.x - left + box.width / 2 - x) * 2 < box.width + wide &&
        Math.abs(box.y - top + box.height / 2 - y) * 2 < box.height + high)) found.push(["under the page's own", word]);
    drawn.forEach((one, at) => {
      if (one.x < one.wide / 2 - 1 || one.x > view.wide - one.wide / 2 + 1 || one.y < 0 || one.y > view.high)
        found.push(["outside", state.time, one.word]);
      for (const other of drawn.slice(0, at))
        if (Math.abs(one.x - other.x) * 2 < one.wide + other.wide - .01 &&
          Math.abs(one.y - other.y) * 2 < one.high + other.high - .01) found.push(["meet", state.time, one.word, other.word]);
    });
    for (const { v } of view.bodies) if (!drawn.some(label => label.v === v)) found.push(["missing", state.time, v]);
  }
  return found.slice(0, 5);
}

// Whether what a label's place shows is the label itself: nothing was painted on it behind it.
function paintedLast() {
  const whole = () => plan.getContext("2d").getImageData(0, 0, plan.width, plan.height).data;
  drawPlan();
  const before = whole(), pen = plan.getContext("2d");
  for (const label of view.labels.drawn) view.labels.drawOne(pen, label);
  const after = whole();
  let other = 0;
  for (let i = 0; i < before.length; i++) if (Math.abs(before[i] - after[i]) > 90) other++;
  return other;
}

// What the page says of a script, in the program's words.
async function judgeText(text) {
  const { fault } = await readScript(text, "", new Steady(() => {}));
  return fault ? `bad line ${fault.line} ${fault.kind}` : "whole";
}

// Sets the form's draft: roads, numbers of the head in place of others, and the vehicle; the head, what is said of it, and
// the trial with what each of its requests needs.
async function draftedBy(roads, numbers, vehicle, points = []) {
  drafted.vehicle = { ...VEHICLES.car, ...vehicle };
  const old = { ...START, lanes: [], policies: structuredClone(POLICIES) };
  drafted.draft = Object.assign(draftOfRoads(roads, old), numbers);
  for (const [lane, move, point, place] of points) drafted.draft.lanes[lane].moves[move].points[point] = place;
  drafted.text = draftText(drafted.draft);
  await readDraft();
  const layout = layoutNow(), said = saidOf(drafted.script, drafted.vehicle);
  const needs = layout ? layout.lanes.flatMap(lane => Object.entries(lane.moves).map(([turn, path]) => {
    const { steps, spans, reach, length, fixed } = tilesOf(layout, path, drafted.vehicle).needs;
    return { lane: lane.at, turn, steps, spans, reach, length, fixed };
  })) : [];
  return { text: drafted.text, said, needs, trial: layout && !said.faults.length ? trialText() : null };
}

// The head that a script's own head is as a draft.
async function redrafted(text) {
  const script = await readScript(text, "", new Steady(() => {}));
  return draftText(draftOf(script));
}

// The place in the window of a point of the sketch, in mm.
function placeOnSketch(x, y) {
  const box = sketch.getBoundingClientRect();
  return [box.x + view.x(x), box.y + view.y(y)];
}

// The moves of the form's layout that take tiles outside of their lane's tile set, with that HALF.
function unclaimed(half) {
  const layout = Object.assign(layoutNow(), { half });
  return layout.lanes.flatMap(lane => Object.entries(lane.moves).filter(([, path]) => {
    lane.tiles = null;
    const claimed = laneTiles(layout, lane), { reserved } = tilesOf(layout, path, drafted.vehicle);
    return reserved.some((is, tile) => is && !claimed[tile]);
  }).map(([turn]) => [lane.at, turn]));
}
