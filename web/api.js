// Asks the server: one request at a time, gently, and says in words what it refuses.
import {inLanguage, t} from "./language.js";
import {doubt, known, state, told} from "./live.js";
import {urlOf} from "./place.js";
import {OF_PROXY, REFUSALS} from "./refusals.js";

const words = inLanguage(REFUSALS);
// what the proxy refuses itself: by its words, and by the status
const proxyWords = inLanguage({en: {}, de: OF_PROXY});
const byStatus = {401: t("refused.login"), 413: words[9]};

/**
 * What the server, or the proxy before it, doesn't do: its number (0 of the proxy), its words, and the line of an import.
 * An order is lost where its answer didn't come, or says that nobody knows: it may be done all the same.
 */
export class Refusal extends Error {
  constructor(status, reply, isOrder) {
    const number = reply?.number ?? 0, said = reply?.words;
    const plain = said ? proxyWords[said] ?? said : byStatus[status] ?? t("refused.proxy", {status});
    super(number ? words[number] ?? reply.error : status ? plain : t("refused.away"));
    const isLost = isOrder && (!status || status === 502 || status === 504 || number === 16);
    Object.assign(this, {status, number, line: reply?.line, isFault: !number && !said, isLost});
  }

  /** The refusal as a sentence. */
  get sentence() {
    const key = this.number ? "refused.number" : this.isLost ? "refused.lost" : "refused.plain";
    return t(key, {number: String(this.number), words: this.message, more: this.isLost ? t("refused.look") : ""});
  }

  /** Whether the database failed: the program says no more until it is started anew. */
  get isStore() {
    return this.number === 16 || this.number === 17;
  }
}

/** Tells of each failed request that isn't a plain refusal (`fault`), and of each answer (`answer`). */
export const events = new EventTarget();

let last = Promise.resolve();

/** Does the work once all that was asked before is answered. */
function inTurn(work) {
  const mine = last.then(work);
  last = mine.catch(() => {});
  return mine;
}

function read(text) {
  try {
    return JSON.parse(text);
  } catch {
    return null;
  }
}

/** The refusal that a reply is, told to all who listen. */
function refused(status, text, isOrder) {
  const refusal = new Refusal(status, read(text), isOrder);
  if (refusal.isStore || refusal.isFault) {
    events.dispatchEvent(new CustomEvent("fault", {detail: refusal}));
  }
  return refusal;
}

// how often the server was asked
let count = 0;

async function sent(method, path, body) {
  let reply, text;
  count += 1;
  try {
    reply = await fetch(urlOf(path), {method, body, cache: "no-store", signal: AbortSignal.timeout(60_000)});
    text = await reply.text();
  } catch {
    throw refused(0, "", method !== "GET");
  }
  if (!reply.ok) {
    throw refused(reply.status, text, method !== "GET");
  }
  events.dispatchEvent(new Event("answer"));
  if (method !== "GET") {
    doubt();
  }
  return text;
}

/** The text that the server answers. */
export const askText = (method, path, body) => inTurn(() => sent(method, path, body));

/** The object that the server answers; an object is sent as JSON, a text or a file as it is. */
export async function ask(method, path, body) {
  const plain = body === undefined || typeof body === "string" || body instanceof Blob;
  return JSON.parse(await askText(method, path, plain ? body : JSON.stringify(body)));
}

/** What the server would answer: of what the console told, where that has it. */
export const get = async (path) => known(path) ?? ask("GET", path);

/** Asks out of turn: for what is done to many, a few at a time. */
export const beside = async (method, path) => JSON.parse(await sent(method, path));

/** A page of a list. */
export const page = (path, offset, limit) => get(`${path}${path.includes("?") ? "&" : "?"}offset=${offset}&limit=${limit}`);

/** A whole list of at most some thousand, by as few requests as there can be. */
export async function all(path) {
  const found = [];
  for (;;) {
    const {content, total} = await page(path, found.length, 500);
    found.push(...content);
    if (!content.length || found.length >= total) {
      return found;
    }
  }
}

/** Sends a file and tells how much of it has gone. */
export const upload = (path, file, progress) => inTurn(() => new Promise((done, fail) => {
  const request = new XMLHttpRequest();
  request.open("POST", urlOf(path));
  request.upload.onprogress = (it) => progress(it.loaded, it.total);
  request.onload = () => (request.status < 300 ? done(JSON.parse(request.responseText)) : fail(refused(request.status, request.responseText, true)));
  request.onerror = () => fail(refused(0, "", true));
  request.send(file);
}));

const EVERY = 5_000;
const SLOWEST = 60_000;

/**
 * Does the work now and again while the page is seen: every 5 seconds, slower after failures and where it takes long.
 * Where a console tells what is new it is done then, and else once a minute: what asks the server too not before 5 seconds.
 * What no console tells at once (`isUntold`) is asked as if there were none.
 */
export function gently(work, isUntold = false) {
  let timer, failures = 0, busy = false, again = false, over = false, ended = -Infinity, asks = false, turns = 0;

  async function turn() {
    clearTimeout(timer);
    if (over || document.hidden) {
      return;
    }
    again = busy;
    if (busy) {
      return;
    }
    busy = true;
    const began = performance.now(), before = count;
    failures = await work().then(() => 0, () => failures + 1);
    busy = false;
    turns += 1;
    // the first one asks for what never changes
    [ended, asks] = [performance.now(), turns > 1 && count > before];
    const pause = Math.min(SLOWEST, Math.max(EVERY * 2 ** failures, 10 * (ended - began)));
    timer = setTimeout(turn, again ? 0 : state() && !failures && !isUntold ? SLOWEST : pause);
  }

  const hear = () => {
    clearTimeout(timer);
    timer = setTimeout(turn, asks && !failures ? Math.max(0, ended + EVERY - performance.now()) : 0);
  };

  document.addEventListener("visibilitychange", turn);
  told.addEventListener("news", hear);
  turn();
  return {
    now: turn,
    end() {
      over = true;
      clearTimeout(timer);
      document.removeEventListener("visibilitychange", turn);
      told.removeEventListener("news", hear);
    },
  };
}
