// What the console tells: when and who, why a rollout paused, which version a device has. Without one all is asked of the server, as it is.
import {urlOf} from "./place.js";

const EVERY = 2_000;
/** Longer than the state may be old, in milliseconds, before nothing is taken from it any more. */
const STALE = 6_000;
/** Seconds that the console's own look at the server may be old. */
const OLD_LOOK = 45;
const DOUBTED = 4_000;
/** Where there never was a console it is looked for so seldom. */
const SELDOM = 60_000;
const KNOWN = "fwdesk-console";

/** `news`: something is other than it was. `look`: it was asked. */
export const told = new EventTarget();

let body = null, tag = "", asked = "", at = -Infinity, look = 0;
let presence = "unknown", awaySince = null, doubted = -Infinity, timer, turn = 0, sought = -Infinity;
// nothing came at all: that there is no console isn't known by that
let isUnanswered = false;

const fresh = () => presence === "there" && performance.now() - at < STALE && look < OLD_LOOK && !body?.away;

/** The newest that was told, or null where nothing is known of now. */
export const state = () => (fresh() ? body : null);

/** What was told last, however old; null where there never was a console. */
export const lastTold = () => body;

/** Whether there is a console that doesn't answer, and since when; null where there is none, or where it answers. */
export const awayFrom = () => (presence === "away" ? awaySince : null);

/** Waits until what is told is of the address that is shown; a second at most, and not where nobody tells. */
export async function ready() {
  const until = performance.now() + 1_000;
  while (presence !== "none" && presence !== "away" && asked !== pathNow() && performance.now() < until) {
    await new Promise((done) => {
      const timeout = setTimeout(done, 100);
      told.addEventListener("look", () => (clearTimeout(timeout), done()), {once: true});
    });
  }
}

/** What else the console answers, or null where it doesn't. */
export async function askConsole(path) {
  if (presence !== "there") {
    return null;
  }
  const reply = await fetch(urlOf(path), {cache: "no-store", signal: AbortSignal.timeout(5_000)}).catch(() => null);
  return reply?.ok ? reply.json() : null;
}

/** Whether a console was there since the page was opened. */
export const isInstalled = () => presence === "there" || presence === "away";

/** When the console looked at the server last. */
export const looked = () => new Date(Date.now() - (performance.now() - at) - look * 1000);

/** After a command of this page what was told before isn't taken for what is. */
export function doubt() {
  doubted = performance.now() + DOUBTED;
  clearTimeout(timer);
  timer = setTimeout(listen, 300);
}

const ROLLOUT = /^\/rest\/v1\/rollouts\/(\d+)(?:\/deploygroups(?:\?limit=500|\/(\d+)))?$/;

/** The answer that the server would give, where what was told has it. */
export function known(path) {
  const now = performance.now() < doubted ? null : state();
  const [, id, group] = ROLLOUT.exec(path) ?? [];
  const rollout = now?.rollout;
  if (!rollout || rollout.id !== Number(id)) {
    return undefined;
  }
  if (!path.includes("deploygroups")) {
    return rollout;
  }
  if (rollout.groups.length !== rollout.totalGroups) {
    return undefined;
  }
  return group ? rollout.groups.find((it) => it.id === Number(group)) : {content: rollout.groups, total: rollout.groups.length};
}

/** What the view that is shown is about: one rollout, or all. */
function pathNow() {
  const [, id] = /^#\/rollouts\/(\d+)/.exec(location.hash) ?? [];
  return `/fwdesk/state${id ? `?rollout=${id}` : ""}`;
}

/** Where this browser never saw a console nobody is missed. */
function became(answer) {
  const before = presence;
  if (answer === "there") {
    localStorage.setItem(KNOWN, "seen");
  }
  const what = answer === "away" && !localStorage.getItem(KNOWN) ? "none" : answer;
  presence = what;
  awaySince = what === "away" ? awaySince ?? new Date() : null;
  return before !== what;
}

/** Asks once; answers whether something is other than before. */
async function ask(path) {
  const isSame = path === asked;
  const headers = isSame && tag ? {"If-None-Match": tag} : {};
  const reply = await fetch(urlOf(path), {headers, cache: "no-store", signal: AbortSignal.timeout(4_000)});
  if (reply.status === 404 || reply.status === 403) {
    // of the console: a rollout that it doesn't know yet; of the server, which gives a number: there is no console; of the proxy: not for this login
    const {number, words} = await reply.json().catch(() => ({number: 3}));
    asked = "";
    return became(reply.status === 404 && words && number === undefined ? "there" : "none");
  }
  if (reply.status !== 200 && reply.status !== 304) {
    return became("away");
  }
  if (reply.status === 200) {
    const text = await reply.json();
    body = text;
    tag = reply.headers.get("ETag") ?? "";
    asked = path;
    look = Number(reply.headers.get("Age") ?? 0);
    at = performance.now();
    became("there");
    return true;
  }
  look = Number(reply.headers.get("Age") ?? 0);
  at = performance.now();
  return became("there");
}

async function listen() {
  clearTimeout(timer);
  if (document.hidden || presence === "none" && !isUnanswered && performance.now() - sought < SELDOM) {
    return;
  }
  turn += 1;
  sought = performance.now();
  const mine = turn, path = pathNow();
  const was = fresh();
  let isLost = false;
  const isNews = await ask(path).catch(() => (isLost = true, became("away")));
  if (mine !== turn) {
    return;
  }
  isUnanswered = isLost;
  told.dispatchEvent(new Event("look"));
  if (isNews || was !== fresh()) {
    told.dispatchEvent(new Event("news"));
  }
  timer = setTimeout(listen, presence === "none" && !isUnanswered ? SELDOM : EVERY);
}

document.addEventListener("visibilitychange", listen);
addEventListener("hashchange", listen);

/** The first answer, so that the first view knows it; within a second. */
export const begun = Promise.race([listen(), new Promise((done) => setTimeout(done, 1_000))]);
