"use strict";
// ---- The list of entries: only what is in sight is made.

const list = $("list");
let listed = { of: null, count: 0 };

function fillList() {
  const crossing = crossingNow(), { journal } = crossing;
  let of = null;
  if (state.row !== null) {
    of = [];
    const extra = crossing.extra.some(each => each.row === state.row);
    for (let i = 0; i < journal.count; i++) if (journal.$row[i] === state.row ||
      (state.row === ROW.asks && journal.$act[i] <= CHANGE)) of.push(i);
    if (extra) of = crossing.extra.filter(each => each.row === state.row);
  }
  listed = { of, count: of ? of.length : journal.count };
  $("listname").textContent = state.row === null ? `Entries (${listed.count})`
    : `Entries: ${beforeWord(ROWS[state.row], ", ")}${ROWS[state.row].word} (${listed.count})`;
  let ground = list.querySelector(".ground");
  if (!ground) { ground = make("div", { class: "ground" }); list.append(ground); }
  ground.style.height = `${listed.count * rowHigh()}px`;
  drawList(true);
}

const rowHigh = () => HIGH() === 24 ? 34 : 26;

// What isn't an entry: a letter with a fault, or a vehicle that enters.
function otherWord({ v, id, letter }) {
  if (!letter) return `v${v} enters by ${id}`;
  return `v${v} ${letter.way === "up" ? "sends" : "is sent"} ${letter.text.split(" ").slice(0, 2).join(" ")}: ${letter.fault}`;
}

function drawList(anew) {
  const crossing = crossingNow(), high = rowHigh(), from = Math.max(0, Math.floor(list.scrollTop / high) - 6),
    to = Math.min(listed.count, from + Math.ceil(list.clientHeight / high) + 12), known = knownNow();
  const key = `${from} ${to} ${known} ${state.row} ${state.chosen?.kind === "entry" ? state.chosen.i : ""}`;
  if (!anew && key === listed.key) return;
  listed.key = key;
  for (const item of list.querySelectorAll(".item")) item.remove();
  for (let place = from; place < to; place++) {
    const each = listed.of ? listed.of[place] : place, other = typeof each === "object";
    const step = other ? each.step : crossing.journal.$now[each];
    const say = other ? otherWord(each) : shortWord(crossing, each);
    const item = make("div", { class: `item ${other || each < known ? "known" : "later"}`, role: "option",
      id: `item${place}`, "aria-selected": String(!other && state.chosen?.kind === "entry" &&
      state.chosen.i === each) },
      make("span", { class: "step" }, step), make("span", { class: "say" }, say));
    item.style.top = `${place * high}px`;
    item.dataset.place = place;
    item.dataset.i = other ? -1 : each;
    list.append(item);
  }
}

function scrollList(i) {
  let place = i;
  if (listed.of) { place = listed.of.indexOf(i); if (place < 0) return; }
  const high = rowHigh(), top = place * high;
  if (top < list.scrollTop || top > list.scrollTop +
    list.clientHeight - high) list.scrollTop = top - list.clientHeight / 2;
  drawList(true);
}

// While nothing of the list is chosen, it follows the time: the last entry known is in sight.
function followList() {
  if (listed.of || state.chosen?.kind === "entry" || list.matches(":hover, :focus")) return;
  const high = rowHigh(), top = (knownNow() - 1) * high;
  if (top < list.scrollTop || top > list.scrollTop + list.clientHeight - 2 * high) list.scrollTop = Math.max(0,
    top - list.clientHeight / 2);
}

function openPlace(place) {
  const each = listed.of ? listed.of[place] : place;
  if (each === undefined) return;
  state.place = place;
  if (typeof each === "object") { setTime(each.step,
    true); choose({ kind: "vehicle", v: each.v }); } else chooseEntry(each, true);
  list.setAttribute("aria-activedescendant", `item${place}`);
}

list.addEventListener("scroll", () => drawList(false));
list.addEventListener("click", event => {
  const item = event.target.closest(".item");
  if (item) openPlace(+item.dataset.place);
});
list.addEventListener("keydown", event => {
  const move = { ArrowDown: 1, ArrowUp: -1, PageDown: 10, PageUp: -10 }[event.key];
  if (!move) return;
  event.preventDefault();
  event.stopPropagation();
  const place = Math.max(0, Math.min(listed.count - 1, (state.place ?? -1) + move)), high = rowHigh();
  openPlace(place);
  if (place * high < list.scrollTop) list.scrollTop = place * high;
  if ((place + 1) * high > list.scrollTop + list.clientHeight) list.scrollTop = (place + 1) * high - list.clientHeight;
});
