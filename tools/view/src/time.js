"use strict";
// ---- Time

let asked = false;
function drawAll() {
  if (asked || !crossingNow()) return;
  asked = true;
  requestAnimationFrame(() => { asked = false; drawNow(); });
}

function drawNow() {
  const crossing = crossingNow();
  if (!crossing) return;
  drawPlan();
  drawTime();
  followList();
  drawList(false);
  const step = stepNow(), under = $("under"), { policy } = crossing.policyAt(step),
    name = crossing.layout.policies[policy]?.name ?? "";
  if (state.pinned?.named && state.pinned.step !== Math.floor(state.time))
    under.replaceChildren(make("b", {}, `Step ${withSeconds(state.pinned.step)}`),
      ` as known in step ${Math.floor(state.time)}, before entry ${state.pinned.entry}`);
  else {
    const granted = crossing.drives || !crossing.journal.count ? "" : ", vehicles drawn as granted";
    under.replaceChildren(`Step ${withSeconds(step)}, ${name ? `policy ${name}` : "no policy"}${granted}`);
  }
  if (document.activeElement !== $("step")) $("step").value = Math.floor(state.time);
  if (document.activeElement !== $("seconds")) $("seconds").value = secondsOf(Math.floor(state.time));
  $("slide").value = Math.floor(state.time);
  for (const [id, way] of [["play", 1], ["backplay", -1]]) $(id).setAttribute("aria-pressed",
    String(state.playing === way));
}

function setTime(time, keep) {
  const { first, last } = state.run;
  state.time = Math.max(first, Math.min(last, time));
  state.pinned = null;
  if (!keep && state.chosen?.kind === "entry") state.chosen = null;
  if (state.playing === 0 || performance.now() - (setTime.told ?? 0) > 250) {
    setTime.told = performance.now();
    if (!keep) showDetailsKept();
  }
  drawAll();
}

// While time goes on, the details of what is chosen follow it, and the focus within them stays.
function showDetailsKept() { if (!$("details").contains(document.activeElement)) showDetails(); }

function stop() { state.playing = 0; }

function play(way) {
  if (state.playing === way) { stop(); drawAll(); return; }
  const { first, last } = state.run;
  if (way > 0 && state.time >= last) state.time = first;
  if (way < 0 && state.time <= first) state.time = last;
  state.pinned = null;
  const running = state.playing;
  state.playing = way;
  if (running) return;
  let before = performance.now();
  const tick = now => {
    if (!state.playing || !state.run) return;
    const { first, last } = state.run, time = state.time + state.playing * Math.min(.25,
      (now - before) / 1000) * stepsASecond();
    before = now;
    // The end is that of the way on which time goes: at the other end it begins.
    if (state.playing > 0 ? time >= last : time <= first) { stop(); setTime(time); return; }
    setTime(time);
    requestAnimationFrame(tick);
  };
  requestAnimationFrame(now => { before = now; tick(now); });
}

const stepBy = count => {
  stop();
  setTime(Math.floor(stepOfCursor() === state.time ? state.time : state.time) + count);
};

function entryBy(way, refusals) {
  const crossing = crossingNow(), { journal } = crossing, wanted = i => !refusals || ROWS[journal.$row[i]].refusal;
  let i = state.chosen?.kind === "entry" ? state.chosen.i + way : way > 0 ? crossing.knownAt(stepNow() - 1)
    : knownNow() - 1;
  while (i >= 0 && i < journal.count && !wanted(i)) i += way;
  if (i >= 0 && i < journal.count) chooseEntry(i);
}

function setCrossing(at) {
  state.at = at;
  state.row = null;
  state.pinned = null;
  if (state.chosen?.kind !== "vehicle") state.chosen = null;
  state.tile = null;
  timed.crossing = null;
  for (const [i, button] of [...$("crossings").children].entries()) button.setAttribute("aria-pressed",
    String(i === at));
  fillRows();
  fillList();
  showDetails();
  drawAll();
}
