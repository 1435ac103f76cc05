// One build: how it ended, and the end of its log, which is followed while it runs.
import { element, link, table } from "./draw.js";
import { address } from "./names.js";

const OUTCOMES = { running: "runs", success: "passed", failure: "failed", lost: "was lost: its worker is gone" };

/** Draws a build into a part of the page. */
export function drawBuild(view, state, number) {
  const known = state.known(`builds/${number}`);
  const parts = [element("h2", {}, `Build ${number}`)];
  if (known === undefined) parts.push(element("p", {}, "The gate is being asked."));
  else if (known === null) parts.push(element("p", {}, `The gate knows no build ${number}.`));
  else parts.push(...facts(known, state), ...logs(known, state, view));
  const shown = view.querySelector("pre:focus")?.dataset.name;
  view.replaceChildren(...parts);
  for (const it of view.querySelectorAll("pre")) {
    it.scrollTop = it.dataset.at === "end" ? it.scrollHeight : Number(it.dataset.at);
    if (it.dataset.name === shown) it.focus();
  }
}

function facts(known, state) {
  const on = known.ahead.map(([change]) => state.names.short(change));
  const landings = known.after === 1 ? "1 landing" : `${known.after} landings`;
  const counts = known.live ? "" : ", and doesn't count any more: what it ran on has changed";
  return [table([
    ["Job", known.job], ["Queue", known.queue],
    ["Change", element("a", { href: `#/changes/${known.change}` }, state.names.title(known.change))],
    ["Revision", String(known.revision)], ["Runs on", [`${landings} of its queue`, ...on].join(", then ")],
    ["State", `${OUTCOMES[known.outcome] ?? known.outcome}${counts}`]])];
}

/** The ends of a build's logs: one, unless the gate was restored and gave its number out again. */
function logs(known, state, view) {
  state.followed = known.build;
  const files = state.logs.get(known.build);
  if (files === undefined) return [element("p", {}, "Its log is being asked for.")];
  const named = address(state.link(known));
  const elsewhere = named ?? address(state.names.logs?.replace("{build}", String(known.build)));
  const isElsewhere = named || (elsewhere && new URL(elsewhere).origin !== location.origin);
  if (isElsewhere) return [element("p", {}, link(elsewhere, `Its log is at ${new URL(elsewhere).host}.`))];
  if (!files.size) {
    return [element("p", {}, "No log of it is served at this host. Whichever worker ran it has it, in the folder of its logs.")];
  }
  return [...files].map(([name, file]) => {
    const old = view.querySelector(`pre[data-name="${CSS.escape(name)}"]`);
    const isAtEnd = !old || old.scrollHeight - old.scrollTop - old.clientHeight < 20;
    const part = file.from ? `the last ${file.text.length} characters of ` : "";
    return element("section", { "aria-label": name }, element("h3", {}, link(`logs/${known.build}/${encodeURIComponent(name)}`, name)),
      element("p", { class: "facts" }, `${part}${file.size} bytes${known.outcome === "running" ? ", followed while it runs" : ""}`),
      element("pre", { tabindex: "0", "aria-label": `log ${name}`, "data-name": name, "data-at": isAtEnd ? "end" : old.scrollTop },
        file.text));
  });
}
