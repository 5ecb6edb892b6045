// When, who and why: what the console tells of a rollout.
import {h, p} from "./drawing.js";
import {ago, has, nodes, number, t, when, written} from "./language.js";
import {state} from "./live.js";

/** A moment, with its exact time for who points at it. */
export const time = (seconds) => h("time", {datetime: new Date(seconds * 1000).toISOString(), title: written(new Date(seconds * 1000))}, when(seconds));

const by = (who) => (!who ? "" : who === "-" ? t("by.machine") : t("by.who", {who}));
const isNear = ({at, from}) => !from || at - from <= 15;

/** When it happened: a moment, or between two looks. */
const moment = (act) => (isNear(act) || when(act.from) === when(act.at)
  ? t("moment.near", {at: when(act.at), ago: ago(act.at)}) : t("moment.between", {from: when(act.from), at: when(act.at)}));

/** That it is paused: when, by whom, and why. */
function pausedWords(act) {
  const said = {moment: moment(act), by: by(act.who)};
  if (act.by === "order" || act.by === "unknown") {
    return t(`paused.${act.by}`, said);
  }
  const {group, failed, size, limit} = act;
  return t(act.guess ? "paused.guess" : "paused.itself", {...said, why: t("paused.why", {group, failed, size, limit})});
}

const MOMENTS = ["from", "to"];
const STRANGERS = ["name", "words", "reason", "path"];

/** A value of an event's sentence: a moment, a stranger's words in quotes, or what is the console's own. */
function valueOf([key, value]) {
  const isQuoted = STRANGERS.includes(key) || key === "who" && value !== "-";
  const words = isQuoted ? t("quoted.words", {words: value}) : key === "who" ? t("quoted.machine") : value;
  return [key, MOMENTS.includes(key) ? when(value) : words];
}

/** What happened, in the reader's language; a console that has other sentences says it in English. */
export function happenedWords({words, more}) {
  const said = more?.say ?? [];
  const isKnown = said.length && said.every(([key]) => has(`event.${key}`));
  return isKnown ? said.map(([key, values]) => t(`event.${key}`, Object.fromEntries(Object.entries(values).map(valueOf)))).join("") : words;
}

const ACTS = ["made", "approve", "start", "resume", "finished"];

/** Who did it, and when. */
const actWords = (name, act) => t(`acts.${name}`, {by: by(act.who), moment: moment(act)});

const standsWords = ({stands: {silent, size, group, ok, needed}, changed}) => t("stands.said", {since: when(changed), silent, size, group, ok, needed});

/** What the console told of a rollout, of all that are not over or of the one that is shown; or null. */
function knownOf(rollout) {
  const now = state();
  return now?.rollout?.id === rollout.id ? now.rollout : now?.rollouts?.find((it) => it.id === rollout.id) ?? null;
}

const since = (seconds) => h("span", {class: "facts since"}, nodes("acts.since", {time: time(seconds), ago: ago(seconds)}));

/** In a list: since when it is in its state. */
export function whenOf(rollout) {
  const known = knownOf(rollout);
  return known?.since ? since(known.since) : null;
}

/** In a list: why it is paused, as the console saw it. */
export function pausedLine(rollout) {
  const act = knownOf(rollout)?.acts.paused;
  return act?.at ? p("cause", pausedWords(act)) : null;
}

/** That it stands still, in a list. */
export function standsLine(rollout) {
  const known = knownOf(rollout);
  return known?.stands ? p("cause", standsWords(known)) : null;
}

/** Of the rollout that is shown: what the console told, or null. */
const actsOf = (rollout) => {
  const known = state()?.rollout;
  return known?.id === rollout.id ? known.acts : null;
};

/** Who asks for the approval that a rollout waits for. */
export function askedLine(rollout) {
  const made = knownOf(rollout)?.acts.made;
  const isAsked = rollout.status === "waiting_for_approval" && made?.who;
  return isAsked ? t("acts.asks", {who: made.who === "-" ? t("log.machine") : made.who, moment: moment(made)}) : null;
}

/** Since when it is in its state, behind it. */
export function sinceOf(rollout) {
  const known = state()?.rollout;
  return actsOf(rollout) && known.since ? since(known.since) : null;
}

/** The acts of these names that were seen, as one sentence; or null. */
function sentenceOf(names, acts, of) {
  const said = names.filter((it) => acts?.[it]?.at).map((it) => actWords(it, acts[it])).join("; ");
  return said ? p(of, `${said[0].toUpperCase()}${said.slice(1)}.`) : null;
}

/** Who did what to it, as one line. */
export const actsLine = (rollout) => sentenceOf(ACTS, actsOf(rollout), "facts acts");

/** When a group began and was finished, and by whose order it began. */
export function groupLine(rollout, group) {
  const known = state()?.rollout, acts = known?.id === rollout.id ? known.groupActs?.[group.id] : null;
  return sentenceOf(["began", "ended"], acts, "under");
}

/** Why it is paused, as the console saw it: null where it didn't. */
export function pauseOf(rollout) {
  const act = actsOf(rollout)?.paused;
  if (rollout.status !== "paused" || !act?.at) {
    return null;
  }
  const words = (act.words ?? []).map(([it, n]) => h("li", {"data-words": n}, t("words.times", {count: number(n), words: it})));
  const whose = act.read < act.failed ? t("words.lastOf", {read: act.read}) : t("words.last");
  return [p("cause", pausedWords(act)), words.length ? [p("under", whose), h("ul", {class: "words"}, words)] : null];
}

/** The way to those that failed: of a paused rollout the first thing to look at. */
export function seeFailed(rollout, groups) {
  const group = groups.filter((it) => it.bad).sort((one, other) => other.bad - one.bad)[0];
  const at = groups.find((it) => it.id === actsOf(rollout)?.paused?.group && it.bad) ?? group;
  return rollout.status === "paused" && at
    ? h("a", {class: "button main", id: "see-failed", href: `#/rollouts/${rollout.id}/groups/${at.id}?state=error`}, t("failed.see", {n: at.bad})) : null;
}

/** That it stands still, with the ways on. */
export function standsOf(rollout) {
  const known = state()?.rollout;
  return known?.id === rollout.id && known.stands ? [p("cause stands", standsWords(known)), p("under", t("stands.ways"))] : null;
}

/** What happened, the newest first. */
export function history(rollout) {
  const now = state();
  if (now?.rollout?.id !== rollout.id || !now.events?.length) {
    return null;
  }
  const line = (it) => h("li", {"data-key": it.id}, time(it.at), ": ", happenedWords(it));
  return h("details", {class: "card", id: "happened"}, h("summary", {}, t("happened.entries", {entries: t("n.entries", {n: now.events.length})})),
    p("hint", t("happened.from", {begun: when(now.begun)})), h("ul", {class: "history"}, now.events.map(line)));
}
