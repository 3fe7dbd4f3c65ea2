"use strict";
// ---- What is shown: one state, and what draws it.

const $ = id => document.getElementById(id);
const state = {
  run: null, at: 0, time: 0, pinned: null, chosen: null, row: null, playing: 0, pace: 1, ms: 20, zoom: 1, tile: null,
  layers: { reserved: true, under: true, greens: true, paths: true, lanes: false, names: true },
};
const LAYERS = [
  ["reserved", "reserved",
    '<rect x="1" y="1" width="14" height="14" fill="#0072b2" fill-opacity=".28" stroke="#0072b2" stroke-width="1.5"/>'],
  ["under", "under vehicles", '<rect x="1" y="1" width="14" height="14" fill="#0072b2" fill-opacity=".55"/>'],
  ["greens", "greens", [3, 8, 13].flatMap(x => [3, 8, 13].map(y =>
    `<circle cx="${x}" cy="${y}" r="1.4" fill="var(--claim)"/>`)).join("")],
  ["paths", "paths", '<path d="M1 14C8 14 12 10 12 4" stroke="var(--road)" stroke-width="1.6" fill="none"/>' +
    '<path d="M8.5 5h7l-3.5-5z" fill="var(--road)"/>'],
  ["lanes", "lane tile sets", '<path d="M1 1h9v5h5v9H6v-5H1z" fill="none" stroke="var(--wait)" stroke-width="1.4"/>'],
  ["names", "asking",
    '<rect x=".7" y="4" width="14.6" height="9" rx="3" fill="none" stroke="var(--named)" stroke-width="1.4"/>' +
    '<path d="M6 6.5l4 4m0-4l-4 4" stroke="var(--ink)" stroke-width="1.3"/>'],
];
// How fast time plays, against real time.
const PACES = [1 / 50, 1 / 20, 1 / 10, 1 / 5, 1 / 2, 1, 2, 5, 10, 50];
const paceWord = pace => pace === 1 ? "real time" : pace > 1 ? `${pace} × real time` : `1/${Math.round(1 / pace)} real time`;
const stepsASecond = () => state.pace * 1000 / state.ms;

// A step's time in seconds, with as many places as the step's length needs.
const secondsOf = step => (step * state.ms / 1000).toFixed(state.ms % 1000 === 0 ? 0 : state.ms % 100 === 0 ? 1
  : state.ms % 10 === 0 ? 2 : 3);
const withSeconds = step => `${step} (${secondsOf(step)} s)`;

// Colours of vehicles, by their number. They are told apart by eyes of every kind; numbers and lines say the same.
const HUES = ["#0072b2", "#e69f00", "#cc79a7", "#56b4e9", "#b5651d"];
const hueOf = v => HUES[(v + Math.floor(v / HUES.length)) % HUES.length];
const inkOn = hue => hue === "#0072b2" || hue === "#b5651d" ? "#ffffff" : "#141414";
let tints = {};
function readTints() {
  const style = getComputedStyle(document.documentElement);
  for (const name of ["card", "ink", "soft", "line", "faint", "accent", "fault", "road", "lamp", "wait", "claim",
    "named", "shade"]) tints[name] = style.getPropertyValue("--" + name).trim();
}

const crossingNow = () => state.run?.crossings[state.at];
const stepNow = () => state.pinned ? state.pinned.step : Math.floor(state.time);
const aheadNow = () => Boolean(state.pinned && state.pinned.step > Math.floor(state.time));
const knownNow = () => state.pinned ? state.pinned.known : crossingNow().knownAt(stepNow());

function make(tag, attributes = {}, ...children) {
  const found = document.createElement(tag);
  for (const [name, value] of Object.entries(attributes)) found.setAttribute(name, value);
  found.append(...children.map(child => typeof child === "number" ? String(child) : child));
  return found;
}
