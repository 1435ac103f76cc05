// What the gate says, by the routes that people may use. docs/FORMATS.md has the texts.

/** The most reports that one answer has. */
const REPORTS = 1000;

/** The gate gave no answer, or one that says that it can give none now. */
export class NoAnswer extends Error {}

/** The address of a path of this host. That of the page may have a name and a password, with which nothing is fetched. */
const at = (path) => new URL(path, location.origin);

/** What is read of an answer at a path of this host, within 30 s. */
async function ask(path, read, headers = {}) {
  try {
    return await read(await fetch(at(path), { headers, signal: AbortSignal.timeout(30000), cache: "no-store" }));
  } catch (fault) {
    throw new NoAnswer(`no answer to ${path}: ${fault.message}`);
  }
}

/** The answer, if it is a good one. */
function good(answer) {
  if (!answer.ok) throw new Error(`status ${answer.status}`);
  return answer;
}

/** The text at a path of this host, or null where the gate doesn't know what is asked. */
const text = (path) => ask(path, (answer) => (answer.status === 404 ? null : good(answer).text()));

async function json(path) {
  const said = await text(path);
  return said === null ? null : JSON.parse(said);
}

/** The lines of a text that is whole: its last line says so. */
function lines(said, path) {
  const all = said.split("\n");
  if (all.pop() !== "" || !/^end( \d+)?$/.test(all.at(-1) ?? "")) throw new NoAnswer(`${path} was cut off`);
  return all;
}

export const change = (number) => json(`/changes/${number}`);
export const item = (order) => json(`/items/${order}`);
export const build = (number) => json(`/builds/${number}`);
export const statusText = async () => (await text("/status")) ?? "end\n";

/** What a status text says. An item has the line that it was read from, by which one sees whether it has changed. */
export function parse(said) {
  const queues = [];
  const waiting = [];
  for (const line of lines(said, "/status").slice(0, -1)) {
    const words = line.trim().split(/ +/);
    if (words[0] === "queue") {
      queues.push({ name: words[1], window: Number(words[3]), landed: Number(words[5]), items: [] });
    } else if (words[0] === "waiting") {
      waiting.push({ change: Number(words[1]), revision: Number(words[2]) });
    } else {
      const [order, change, revision] = words.slice(0, 3).map(Number);
      const ahead = words[3] === "-" ? null : Number(words[3]);
      const jobs = words.slice(5).map((it) => ({ job: it.split("=")[0], slot: it.split("=")[1] }));
      queues.at(-1).items.push({ line, order, change, revision, ahead, how: words[4], jobs });
    }
  }
  return { queues, waiting };
}

/** The reports of a queue from a place on, and how many there are in all. */
export async function history(queue, from) {
  const path = `/history/${queue}/${from}`;
  const all = lines((await text(path)) ?? "history\nend 0\n", path);
  const reports = all.slice(1, -1).map((line) => {
    const words = line.trim().split(/ +/);
    const [place, order, change, revision] = words.slice(0, 4).map(Number);
    return { place, order, change, revision, verdict: words[4], landing: words[5] === "-" ? null : Number(words[5]) };
  });
  return { reports, count: Number(all.at(-1).split(" ")[1]), isWhole: reports.length < REPORTS };
}

/** The first builds that run, and how many there are. */
export const running = async () => (await json("/running")) ?? { builds: [], running: 0 };

/** Since when builds run, by this machine's clock, as the watch saw it: nothing where no watch says so. */
export const since = () => ask("/running.json", async (answer) => {
  const ahead = Date.now() - Date.parse(answer.headers.get("Date"));
  const { builds } = await good(answer).json();
  return new Map(Object.entries(builds).map(([build, second]) => [Number(build), second * 1000 + ahead]));
}).catch(() => new Map());

/** The logs of a build that this host serves, each with its name and size: none where it serves none. */
export async function logs(build) {
  const files = (await json(`/logs/${build}/`)) ?? [];
  return files.filter((it) => it.type === "file").map(({ name, size }) => ({ name, size }));
}

/** The bytes of a log from a place on. */
export const bytes = (build, name, from) => ask(`/logs/${build}/${encodeURIComponent(name)}`, async (answer) =>
  new Uint8Array(answer.status === 416 ? 0 : await good(answer).arrayBuffer()), { Range: `bytes=${from}-` });

/** What is written for the page at a path, if it is new, or null where nobody writes it here. */
const written = (path, etag) => ask(path, async (answer) => (answer.status === 304
  ? { etag, said: null } : { etag: answer.headers.get("ETag"), said: await good(answer).json() }),
etag ? { "If-None-Match": etag } : {}).catch(() => null);

/** What the adapter says of requests. */
export const requests = (etag) => written("/requests.json", etag);

/** Where a CI has the logs of builds, as the watch says. */
export const links = (etag) => written("/links.json", etag);
