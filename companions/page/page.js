// The page: which view is shown, when the gate is looked at, and what is said about that.
import { drawBuild } from "./build.js";
import { drawChange } from "./change.js";
import { duration, element } from "./draw.js";
import { drawQueues } from "./queues.js";
import { State } from "./state.js";

/** Milliseconds between looks, and at most between those at a gate that is away. */
const EVERY = 5000;
const AWAY = 30000;
/** Milliseconds without an answer from which on it is said: a proxy that has too much to do refuses some. */
const LATE = 15000;
/** Milliseconds until what is shown of running builds is drawn anew. */
const TIMES = 20000;

const state = new State();
const view = document.getElementById("view");
const asked = document.getElementById("asked");
let timer = null;
let faults = 0;
let drawn = 0;
let isLooking = false;

/** Draws what the address names. */
function draw() {
  const [, kind, rest] = (location.hash || "#/").split("/");
  const begun = performance.now();
  if (view.dataset.kind !== `${kind} ${rest}`) view.replaceChildren();
  view.dataset.kind = `${kind} ${rest}`;
  state.followed = null;
  if (kind === "changes") drawChange(view, state, Number(rest));
  else if (kind === "builds") drawBuild(view, state, Number(rest));
  else if (kind === "search") drawFound(decoded(rest ?? ""));
  else drawQueues(view, state);
  const titles = { changes: () => `${state.names.short(Number(rest))}, gate`, builds: () => `build ${Number(rest)}, gate` };
  document.title = titles[kind]?.() ?? "Gate";
  view.dataset.drawn = (performance.now() - begun).toFixed(1);
  drawn = Date.now();
}

/** A part of an address. One that was cut stays as it is. */
function decoded(part) {
  try {
    return decodeURIComponent(part);
  } catch {
    return part;
  }
}

function drawFound(words) {
  const found = state.names.find(words);
  const list = found.map((it) => element("li", {}, element("a", { href: `#/changes/${it}` }, state.names.title(it))));
  view.replaceChildren(element("h2", {}, `Found for “${words}”`),
    list.length ? element("ul", {}, list) : element("p", {}, "Nothing. Ask for a number, a part of a title, or a person."));
}

/** How old is what is shown, where that matters, and what has happened. A reader is told once that the gate is away. */
function tell() {
  const age = document.getElementById("age");
  const isAway = state.fault !== null && (state.at === null || Date.now() - state.at > LATE);
  if (isAway !== document.body.classList.contains("stale")) {
    state.tell(isAway ? "The gate doesn't answer" : "The gate answers again");
  }
  document.body.classList.toggle("stale", isAway);
  const at = state.at === null ? "nothing is known yet" : `shown is what it said ${duration(Date.now() - state.at)} ago`;
  age.textContent = isAway ? `The gate doesn't answer: ${at}.` : "";
  const news = document.getElementById("news");
  for (const text of state.news.splice(0)) news.append(element("span", {}, `${text}. `));
  while (news.childElementCount > 5) news.firstElementChild.remove();
}

const asksMore = () => state.wanted.size || (state.followed !== null && !state.logs.has(state.followed));

async function look() {
  clearTimeout(timer);
  if (document.hidden || isLooking) return;
  isLooking = true;
  try {
    if ((await state.look()) || Date.now() - drawn > TIMES) draw();
    // What is drawn may show that more has to be asked, and what is answered too.
    for (let times = 0; times < 3 && asksMore() && !state.fault; times += 1) if (await state.answer()) draw();
  } finally {
    isLooking = false;
    faults = state.fault ? faults + 1 : 0;
    tell();
    view.dataset.looks = String(state.looks);
    timer = setTimeout(look, Math.min(AWAY, EVERY * 2 ** Math.min(faults, 4)));
  }
}

document.getElementById("search").addEventListener("submit", (event) => {
  event.preventDefault();
  const found = state.names.find(asked.value);
  location.hash = found.length === 1 ? `#/changes/${found[0]}` : `#/search/${encodeURIComponent(asked.value)}`;
});
document.addEventListener("keydown", (event) => {
  if (event.key === "/" && document.activeElement !== asked) {
    event.preventDefault();
    asked.focus();
  }
});
document.addEventListener("visibilitychange", look);
addEventListener("hashchange", () => {
  draw();
  view.focus();
  look();
});
setInterval(tell, 1000);
look();
