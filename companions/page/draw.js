// Elements of the page. All texts go in as text: nobody's title is markup.

/** An element with attributes and parts, each an element or a text; parts that are null are left out. */
export function element(name, attributes = {}, ...parts) {
  const made = document.createElement(name);
  for (const [key, value] of Object.entries(attributes)) {
    if (value !== null && value !== undefined) made.setAttribute(key, value);
  }
  made.append(...parts.flat(Infinity).filter((it) => it !== null && it !== undefined));
  return made;
}

export const link = (href, ...parts) => (href ? element("a", { href }, ...parts) : element("span", {}, ...parts));

/** Words and signs of jobs: the sign is for the eye, the word for everybody. */
const SLOTS = {
  waiting: ["○", "waiting"], running: ["◐", "running"], success: ["✓", "passed"], failure: ["✗", "failed"],
  skipped: ["–", "skipped"], lost: ["?", "lost"],
};

/** A job and how it stands, with what else there is to say. */
export function job(name, slot, more = null, href = null) {
  const [sign, word] = SLOTS[slot] ?? ["·", slot];
  const label = link(href, `${name} ${word}`);
  return element("li", { class: `job ${slot}` }, element("span", { "aria-hidden": "true" }, `${sign} `), label,
    more ? ` ${more}` : null);
}

/** A table with these heads; without them it is one of facts, where each row's first cell is its head. */
export function table(rows, heads = null) {
  const cell = (it, at) => (!heads && !at ? element("th", { scope: "row" }, it) : element("td", {}, it));
  const head = heads && element("thead", {}, element("tr", {}, heads.map((it) => element("th", { scope: "col" }, it))));
  return element("table", { class: heads ? null : "facts" }, head,
    element("tbody", {}, rows.map((row) => element("tr", {}, row.map(cell)))));
}

/** How long something takes by now, in whole units. */
export function duration(milliseconds) {
  const seconds = Math.max(0, Math.floor(milliseconds / 1000));
  if (seconds < 120) return `${seconds} s`;
  if (seconds < 7200) return `${Math.floor(seconds / 60)} min`;
  return `${Math.floor(seconds / 3600)} h`;
}

/** Puts children in the order of keys, keeping those elements whose mark is the same, so that scrolling isn't disturbed. */
export function arrange(parent, wanted) {
  const keys = new Set(wanted.map((it) => it.key));
  for (const child of [...parent.children]) if (!keys.has(child.dataset.key)) child.remove();
  const kept = new Map([...parent.children].map((it) => [it.dataset.key, it]));
  let at = parent.firstElementChild;
  for (const { key, mark, make } of wanted) {
    const old = kept.get(key);
    const isSame = old?.dataset.mark === mark;
    const child = isSame ? old : make();
    if (!isSame) Object.assign(child.dataset, { key, mark });
    if (old && !isSame) {
      if (at === old) at = child;
      old.replaceWith(child);
    }
    if (at === child) at = at.nextElementSibling;
    else parent.insertBefore(child, at);
  }
}
