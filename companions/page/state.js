// What the page knows of the gate, kept up to date by looks: one request at a time, and only for what has changed.
import { NoAnswer, build, bytes, change, history, item, links, logs, parse, requests, running, since, statusText } from "./gate.js";
import { Names } from "./names.js";

/** The reports shown of each queue, the questions about single changes and items that one look asks, and how many looks
 * there are to one at the adapter's names. */
const LATELY = 10;
const QUESTIONS = 20;
const NAMES_EVERY = 5;
/** Milliseconds after a change until no answer is an older one: the proxy keeps each for a second. */
const SETTLED = 2000;
/** The most answers that are kept, and of a log the most bytes that are read at first and characters that are shown. */
const KEPT = 500;
const LAST = 2 ** 18;
/** Colours and movements of a terminal. */
const CONTROLS = /\x1b\[[0-9;?]*[A-Za-z]|[\x00-\x08\x0b-\x1f\x7f]/g;
const ASK = { changes: change, items: item, builds: build };

export class State {
  constructor() {
    this.names = new Names();
    this.forget();
    this.looks = 0;
    this.etag = null;
    this.links = { etag: null, of: new Map() };
    this.at = null;
    this.fault = null;
    this.isDoubted = false;
  }

  /** Forgets all that one file of the gate said. */
  forget() {
    this.said = null;
    this.status = { queues: [], waiting: [] };
    this.reports = new Map();
    this.builds = new Map();
    this.since = new Map();
    this.places = new Map();
    this.asked = new Map();
    this.wanted = new Set();
    this.logs = new Map();
    this.followed = null;
    this.version = 0;
    this.changed = performance.now();
    this.settled = this.changed;
    this.news = [];
  }

  /** One look. Gives whether anything is to be drawn anew. */
  look() {
    return this.attempt(async () => {
      const isNew = await this.lookAtStatus();
      const areNamed = this.looks % NAMES_EVERY === 0 && (await this.lookAtNames());
      const wasAway = this.fault !== null;
      this.looks += 1;
      this.at = Date.now();
      this.isDoubted = false;
      return [isNew, areNamed, await this.follow(this.followed), wasAway].some(Boolean);
    });
  }

  /** Asks what a view wants to know. Gives whether anything is to be drawn anew. */
  answer() {
    return this.attempt(async () => [await this.ask(), await this.follow(this.followed)].some(Boolean));
  }

  async attempt(task) {
    try {
      const isNew = await task();
      this.fault = null;
      return isNew;
    } catch (fault) {
      if (!(fault instanceof NoAnswer) && !(fault instanceof SyntaxError)) throw fault;
      this.fault = fault;
      // It may come back with another file.
      this.isDoubted = true;
      return true;
    }
  }

  async lookAtStatus() {
    const said = await statusText();
    const now = performance.now();
    if (said !== this.said || this.isDoubted) this.changed = now;
    else if (!isDue(this.changed, this.settled, now)) return false;
    const status = parse(said);
    for (const queue of status.queues) await this.report(queue, this.queue(queue.name));
    const { builds } = status.queues.some((it) => it.items.length) ? await running() : { builds: [] };
    await this.time(builds);
    this.status = status;
    this.said = said;
    this.settled = now;
    this.version += 1;
    this.places = new Map(status.queues.flatMap((queue) =>
      queue.items.map((it, at) => [it.change, { queue, it, place: at + 1 }])));
    return true;
  }

  queue(name) {
    return this.status.queues.find((it) => it.name === name) ?? null;
  }

  /** Where a change stands: its queue, its item and its place. */
  find(change) {
    return this.places.get(change) ?? null;
  }

  /** Reads what left a queue since the last look, behind the last report that is known: where that isn't there as it
   * was, the gate has another file. */
  async report(queue, before) {
    const known = this.reports.get(queue.name);
    const now = performance.now();
    const isChanged = !known || this.isDoubted || !isSame(queue, before);
    if (!isChanged && !isDue(known.changed, known.at, now)) return;
    const changed = isChanged ? now : known.changed;
    const from = known ? Math.max(1, known.count) : await this.first(queue.name);
    const { reports, count, isWhole } = await history(queue.name, from);
    const last = known?.count ? known.last.at(-1) : null;
    const again = last ? reports.shift() : null;
    if (last && JSON.stringify(again) !== JSON.stringify(last)) {
      this.forget();
      this.tell("The gate has another file, or an earlier state of its own");
      return this.report(queue, null);
    }
    if (known && !isWhole) {
      // Nobody has looked for long: only the last ones are shown.
      this.reports.delete(queue.name);
      return this.report(queue, null);
    }
    if (known) for (const it of reports) this.tell(`${queue.name}: ${this.names.short(it.change)} ${said(it)}`);
    this.reports.set(queue.name, { count, changed, at: now, last: [...(known?.last ?? []), ...reports].slice(-LATELY) });
  }

  /** The place from which on the last reports of a queue are shown. */
  async first(queue) {
    const { count } = await history(queue, 10 ** 15);
    return Math.max(1, count - LATELY + 1);
  }

  /** Notes since when each build runs: as the watch says, or else since it was seen here. */
  async time(builds) {
    const before = this.since;
    const here = { at: Date.now(), isOlder: this.said === null, isTold: false };
    const told = builds.some((it) => !before.get(it.build)?.isTold) ? await since() : new Map();
    this.since = new Map(builds.map(({ build }) => [build, told.has(build)
      ? { at: told.get(build), isOlder: false, isTold: true } : before.get(build) ?? here]));
    this.builds = new Map(builds.map((it) => [`${it.order} ${it.job}`, it.build]));
  }

  async lookAtNames() {
    const answer = await requests(this.etag);
    if (answer === null || answer.said === null) return false;
    this.etag = answer.etag;
    this.names.take(answer.said);
    return true;
  }

  /** What is known of a change, an item or a build, by its path. It is asked for where nothing is, or what is may have
   * changed since. */
  known(key) {
    const found = this.asked.get(key);
    if (!found || (found.version !== this.version && mayChange(key, found.said))) this.wanted.add(key);
    return found?.said;
  }

  async ask() {
    const keys = [...this.wanted].slice(0, QUESTIONS);
    for (const key of keys) {
      const [kind, number] = key.split("/");
      const said = await ASK[kind](number);
      this.wanted.delete(key);
      this.asked.delete(key);
      this.asked.set(key, { said, version: this.version });
    }
    for (const key of [...this.asked.keys()].slice(0, Math.max(0, this.asked.size - KEPT))) this.asked.delete(key);
    return keys.length > 0;
  }

  /** Where a CI has the log of a build, if one does. A restored gate gives a number again, for another build. */
  link(known) {
    return this.links.of.get(nameOf(known)) ?? null;
  }

  /** Reads where logs are that a CI has. Gives whether that is new. */
  async lookAtLinks() {
    const { etag, said } = (await links(this.links.etag)) ?? { said: null };
    if (said === null) return false;
    const rows = Array.isArray(said.builds) ? said.builds : [];
    this.links = { etag, of: new Map(rows.map((it) => [nameOf(it ?? {}), it?.link])) };
    return true;
  }

  /** Reads what was added to the logs of a build. */
  async follow(build) {
    if (build === null) return false;
    const isFirst = !this.logs.has(build);
    const files = this.logs.get(build) ?? new Map();
    let isNew = isFirst;
    try {
      if (await this.lookAtLinks()) isNew = true;
      for (const { name, size } of await logs(build)) {
        const known = files.get(name);
        if (known?.size === size) continue;
        const begin = Math.max(0, size - LAST);
        const file = known?.size < size ? known : { from: begin, size: begin, text: "", decoder: new TextDecoder() };
        const more = await bytes(build, name, file.size);
        file.size += more.length;
        const text = (file.text + file.decoder.decode(more, { stream: true })).replace(CONTROLS, "");
        file.from += Math.max(0, text.length - LAST);
        file.text = text.slice(-LAST);
        files.set(name, file);
        isNew = true;
      }
    } catch (fault) {
      // Whoever serves no logs is no gate that is away.
      if (!(fault instanceof NoAnswer) && !(fault instanceof SyntaxError)) throw fault;
    }
    this.logs = new Map([[build, files]]);
    return isNew;
  }

  /** Says something in the live region. */
  tell(text) {
    this.news.push(text);
  }
}

/** A build, by all that the gate says of it when it gives it out. */
const nameOf = ({ build, change, revision, job }) => JSON.stringify([build, change, revision, job]);

/** What has left, or has ended, stays as it is. */
function mayChange(key, said) {
  if (key.startsWith("changes/") || said === null) return true;
  return key.startsWith("items/") ? said.verdict === null : said.outcome === "running";
}

/** Whether it is time to ask once more for what was asked last at a time: just after the change it may have been answered
 * as it was before. */
const isDue = (changed, asked, now) => asked - changed < SETTLED && now - changed >= SETTLED;

/** Whether nothing has left a queue since. */
function isSame(queue, before) {
  if (!before || before.landed !== queue.landed) return false;
  const orders = new Set(queue.items.map(({ order }) => order));
  return before.items.every(({ order }) => orders.has(order));
}

/** How an item left, in words. */
const said = ({ verdict, landing }) => `${VERDICTS[verdict] ?? verdict}${landing === null ? "" : ` as ${landing}`}`;

/** What is said of an item that has left, by the word of its report (docs/RULES.md). */
export const VERDICTS = {
  landed: "landed", failed: "failed its tests", refused: "was refused by the lander", needs: "left, since a need did",
  superseded: "left for a new commit", withdrawn: "left, its approval withdrawn", closed: "left, closed",
};
