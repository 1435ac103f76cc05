// The queues as trains: each from the front to the back, with what left it lately, and what waits to enter.
import { arrange, duration, element, job, link } from "./draw.js";
import { address } from "./names.js";
import { VERDICTS } from "./state.js";

/** Draws all queues into a part of the page. */
export function drawQueues(view, state) {
  const wanted = state.status.queues.map((queue) => ({
    key: `queue ${queue.name}`, mark: queue.name, make: () => section(queue),
  }));
  if (state.status.waiting.length) {
    wanted.push({ key: "waiting", mark: "", make: () => element("section", { "aria-labelledby": "waiting" },
      element("h2", { id: "waiting" }, "Waits to enter"), element("ul", { class: "waiting" })) });
  }
  if (!wanted.length) wanted.push({ key: "none", mark: "", make: () => element("p", {}, "The gate has no queue.") });
  arrange(view, wanted);
  for (const queue of state.status.queues) fill(view.querySelector(`[data-key="queue ${queue.name}"]`), queue, state);
  const waiting = view.querySelector("ul.waiting");
  if (waiting) arrange(waiting, state.status.waiting.map((it) => waits(it, state)));
}

function section(queue) {
  const id = `queue-${queue.name}`;
  return element("section", { class: "queue", "aria-labelledby": id }, element("h2", { id }, queue.name),
    element("p", { class: "facts" }), element("ol", { class: "train", "aria-label": `items of ${queue.name}, front to back` }),
    element("h3", {}, "Left lately"), element("ul", { class: "lately", "aria-label": `what left ${queue.name} lately` }));
}

function fill(part, queue, state) {
  const { items, window, landed } = queue;
  const tested = window === 0 ? "all get tests" : window === 1 ? "the first gets tests" : `the first ${window} get tests`;
  part.querySelector(".facts").textContent =
    `${items.length} ${items.length === 1 ? "item" : "items"}, of which ${tested}; ${landed} landed`;
  const first = items.findIndex((it) => it.how === "ok");
  const wanted = items.map((it, at) => wagon(it, at + 1, first === at, queue, state));
  if (window && window < items.length) {
    wanted.splice(window, 0, { key: "edge", mark: "", make: () => element("li", { class: "edge" }, "the window ends") });
  }
  if (!items.length) wanted.push({ key: "empty", mark: "", make: () => element("li", { class: "empty" }, "empty") });
  arrange(part.querySelector("ol"), wanted);
  const lately = [...(state.reports.get(queue.name)?.last ?? [])].reverse();
  arrange(part.querySelector("ul.lately"), lately.map((it) => leaving(it, state)));
}

/** One item of a queue. */
function wagon(it, place, isFirst, queue, state) {
  const times = it.jobs.map(({ job: name, slot }) => (slot === "running" ? runs(it.order, name, state) : ""));
  const request = state.names.get(it.change);
  const needs = needsOf(request, queue, state);
  const how = stands(it, place, queue, state, isFirst);
  const mark = [it.line, how, state.names.title(it.change), request?.author, ...times, ...needs].join("|");
  return { key: `item ${it.order}`, mark, make: () => {
    const jobs = it.jobs.map(({ job: name, slot }, at) => {
      const build = state.builds.get(`${it.order} ${name}`);
      return job(name, slot, times[at], slot === "running" && build ? `#/builds/${build}` : null);
    });
    return element("li", { class: `item ${it.how}` }, heading(it.change, state),
      element("p", { class: "stands" }, how),
      element("ul", { class: "jobs", "aria-label": "jobs" }, jobs),
      needsLine(needs, state));
  } };
}

/** Where an item stands, in the words of docs/RULES.md. */
export function stands(it, place, queue, state, isFirst = queue.items.find(({ how }) => how === "ok") === it) {
  if (it.how === "blocked") return `blocked: ${failing(it, state)}`;
  if (it.how === "failing") {
    return it.ahead === null ? "fails, and leaves once its other jobs have ended" : "fails, and leaves once those before it are decided";
  }
  const slots = it.jobs.map(({ slot }) => slot);
  if (!slots.includes("running") && !slots.includes("waiting")) {
    return isFirst ? "passed, is being landed" : "passed, waits for those before it";
  }
  if (slots.some((slot) => slot !== "waiting")) return "is tested";
  return queue.window && place > queue.window ? "waits for the window" : "waits for a worker";
}

/** The needs by which an item is blocked: they neither have landed nor are ok in a queue. */
function failing(it, state) {
  const needs = state.known(`changes/${it.change}`)?.needs ?? [];
  const bad = needs.filter((need) => need.state !== "landed" && state.find(need.change)?.it.how !== "ok");
  if (!bad.length) return "a change that it needs fails";
  return `${bad.map((need) => state.names.short(need.change)).join(" and ")}, which it needs, ${bad.length > 1 ? "fail" : "fails"}`;
}

function runs(order, name, state) {
  const since = state.since.get(state.builds.get(`${order} ${name}`));
  return since && !(since.isOlder && Date.now() - since.at < 10000) ? `for ${since.isOlder ? "at least " : ""}${duration(Date.now() - since.at)}` : "";
}

/** What a request needs, each with where it stands, if it stands in a queue. What only waits stands in none. */
function needsOf(request, queue, state) {
  return (request?.needs ?? []).map((need) => {
    const home = state.find(need)?.queue;
    return [need, !home ? "" : home.name === queue?.name ? " ahead of it" : ` in ${home.name}`];
  });
}

function needsLine(needs, state) {
  return needs.length ? element("p", { class: "needs" }, "needs ", needs.map(([need, said], at) => [at ? ", " : "",
    element("a", { href: `#/changes/${need}` }, state.names.short(need)), said])) : null;
}

/** A request with its title and links: to what this page knows of it, and to the forge. */
export function heading(change, state) {
  const request = state.names.get(change);
  const own = element("a", { href: `#/changes/${change}` }, request ? request.title : `change ${change}`);
  const at = request ? link(address(request.address), request.name) : null;
  return element("p", { class: "heading" }, own, request ? element("span", { class: "at" }, " ", at,
    `, change ${change}, by ${request.author}`) : null);
}

/** The jobs by which an item has failed: of its builds that count, one failed and none passed, or three were lost. */
function decided(builds) {
  const live = builds.filter((it) => it.live);
  const count = (job, outcome) => live.filter((it) => it.job === job && it.outcome === outcome).length;
  return [...new Set(live.map(({ job: name }) => name))]
    .filter((name) => !count(name, "success") && (count(name, "failure") || count(name, "lost") > 2))
    .map((name) => `${name} ${count(name, "failure") ? "failed" : "was lost"}`);
}

function leaving(it, state) {
  const order = `items/${it.order}`;
  const gone = it.verdict === "failed" ? state.known(order) : null;
  const why = decided(gone?.builds ?? []).join(", ");
  const said = `${VERDICTS[it.verdict] ?? it.verdict}${it.landing === null ? "" : ` as ${it.landing}`}${why ? `: ${why}` : ""}`;
  return { key: `report ${it.place}`, mark: [said, state.names.title(it.change)].join("|"), make: () =>
    element("li", { class: it.verdict }, heading(it.change, state), element("p", { class: "stands" }, said)) };
}

function waits(it, state) {
  const request = state.names.get(it.change);
  const said = request?.says ?? why(state.known(`changes/${it.change}`));
  const needs = needsOf(request, null, state);
  return { key: `waits ${it.change}`, mark: [it.revision, said, state.names.title(it.change), ...needs].join("|"), make: () =>
    element("li", {}, heading(it.change, state), element("p", { class: "stands" }, said), needsLine(needs, state)) };
}

/** Why a change waits, by what the gate says of it alone. */
function why(known) {
  if (!known) return "approved, waits to enter";
  if (known.full) return "approved, waits for a place: the queue has 1,000 items";
  const lacks = known.needs.filter((it) => it.state !== "landed" && it.stands !== known.queue);
  const told = lacks.map((it) => `change ${it.change}, which ${it.stands ? `stands in ${it.stands}` : `is ${it.state}`}`);
  return told.length ? `approved, waits for ${told.join(" and ")}` : "approved, waits for its turn";
}
