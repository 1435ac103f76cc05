// The requests behind changes, by what the adapter says of them. Without an adapter changes have their numbers alone.

/** Requests by their changes, and how they are found. */
export class Names {
  constructor() {
    this.of = new Map();
    this.logs = null;
  }

  /** Takes what the adapter wrote. What isn't of the form is left out: titles and names are anybody's. */
  take(said) {
    this.of.clear();
    this.logs = typeof said?.logs === "string" ? said.logs : null;
    for (const it of Array.isArray(said?.requests) ? said.requests : []) {
      if (Number.isSafeInteger(it?.change)) this.of.set(it.change, it);
    }
  }

  get(change) {
    return this.of.get(change) ?? null;
  }

  /** How a change is called in a line: its request with the number, its title, and the number of the change. */
  title(change) {
    const it = this.get(change);
    return it ? `${it.title} (${it.name}, change ${change})` : `change ${change}`;
  }

  /** The same in short. */
  short(change) {
    const it = this.get(change);
    return it ? `${it.name} (change ${change})` : `change ${change}`;
  }

  /** The changes that fit what somebody asked for: a number of a change or of a request, a part of a title or a person. */
  find(asked) {
    const words = asked.trim().toLowerCase();
    const number = words.replace(/^(change |#|!)/, "");
    const fits = (it) => [it.title, it.author, it.name].some((text) => String(text).toLowerCase().includes(words));
    const found = [...this.of.values()].filter((it) => String(it.number) === number || fits(it)).map((it) => it.change);
    return /^[1-9][0-9]{0,8}$/.test(number) ? [...new Set([Number(number), ...found])] : found;
  }
}

/** An address that may be a link: of the web, or on this host. Any other is none. */
export function address(text) {
  if (typeof text !== "string") return null;
  try {
    const url = new URL(text, location.href);
    return ["http:", "https:"].includes(url.protocol) ? url.href : null;
  } catch {
    return null;
  }
}
