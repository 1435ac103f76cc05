// One change: what is so of it, and its life, as far as gate and adapter tell it.
import { element, job, link, table } from "./draw.js";
import { address } from "./names.js";
import { stands } from "./queues.js";
import { VERDICTS } from "./state.js";

/** Draws a change into a part of the page. */
export function drawChange(view, state, number) {
  const known = state.known(`changes/${number}`);
  const request = state.names.get(number);
  const parts = [element("h2", {}, request ? request.title : `Change ${number}`)];
  if (request) {
    parts.push(element("p", {}, link(address(request.address), request.name), `, change ${number}, by ${request.author}`));
    if (request.says) parts.push(element("p", { class: "says" }, request.says));
    parts.push(...(request.advice ?? []).map((it) => element("p", { class: "advice" }, it)));
  }
  if (known === undefined) parts.push(element("p", {}, "The gate is being asked."));
  else if (known === null) parts.push(element("p", {}, `The gate knows no change ${number}.`));
  else parts.push(...life(known, request, number, state));
  view.replaceChildren(...parts.filter((it) => it !== null));
}

function life(known, request, number, state) {
  const facts = [["Project", `${known.project}, whose queue is ${known.queue}`], ["State", stateOf(known, state)],
    ["Revision", String(known.revision)]];
  return [table(facts), needs(known, state), revisions(request),
    ...orders(known, request, number, state).map((order) => tests(order, state))];
}

function stateOf(known, state) {
  if (known.state === "open" && known.approval !== null) return "open, approved, waits to enter";
  const found = known.order === null ? null : state.find(known.change);
  if (!found) return known.order === null ? known.state : "open, queued";
  const { queue, it, place } = found;
  return `open, at place ${place} of ${queue.items.length}: ${stands(it, place, queue, state)}`;
}

function needs(known, state) {
  if (!known.needs.length) return element("p", {}, "It needs no other change.");
  const list = known.needs.map((it) => element("li", {},
    element("a", { href: `#/changes/${it.change}` }, state.names.title(it.change)),
    `: ${it.stands ? `stands in ${it.stands}` : it.approval !== null ? "approved, waits too" : it.state}`));
  return element("section", { "aria-label": "needs" }, element("h3", {}, "Needs"), element("ul", {}, list));
}

/** The revisions that the gate was told, the newest first, each with what became of its approvals. */
function revisions(request) {
  const rows = (request?.revisions ?? []).map(({ revision, hash, approvals, withdrawn }) =>
    [String(revision), hash, withdrawn ? `${approvals}, ${withdrawn} taken back` : String(approvals)]);
  return rows.length ? element("section", { "aria-label": "revisions" }, element("h3", {}, "Revisions"),
    table(rows, ["Revision", "Commit", "Approvals"])) : null;
}

/** The items of a change that the page knows of, the newest first. */
function orders(known, request, number, state) {
  const left = [...state.reports.values()].flatMap(({ last }) => last).filter((it) => it.change === number);
  const all = [known.order, request?.order ?? null, ...left.map((it) => it.order)].filter((it) => it !== null);
  return [...new Set(all)].sort((a, b) => b - a);
}

/** The builds of an item. */
function tests(order, state) {
  const it = state.known(`items/${order}`);
  const title = element("h3", {}, `Tests of item ${order}`);
  if (!it) return element("section", {}, title, element("p", {}, "The gate is being asked."));
  const end = it.verdict === null ? "in its queue" : VERDICTS[it.verdict] ?? it.verdict;
  const slots = it.jobs === null ? null : element("ul", { class: "jobs", "aria-label": "jobs" }, it.jobs.map((one) =>
    job(one.job, one.slot, one.voting ? null : "(doesn't vote)")));
  const rows = it.builds.map((build) => [element("a", { href: `#/builds/${build.build}` }, `build ${build.build}`),
    build.job, build.outcome, build.live ? "counts" : "doesn't count"]);
  return element("section", {}, title, element("p", {}, `Revision ${it.revision}, ${end}.`), slots,
    rows.length ? table(rows, ["Build", "Job", "Outcome", "Counts"]) : element("p", {}, "No build yet."));
}
