// Steering: what a state allows, and what will happen, said before it does.
import {ask} from "./api.js";
import {cancelEach, waysToCancel} from "./cancel.js";
import {countsOf, isWaiting, last, needed as neededOf, next} from "./counts.js";
import {h, sure} from "./drawing.js";
import {heldWords} from "./held.js";
import {t} from "./language.js";
import {may} from "./me.js";
import {inSentences, olderOpen, others} from "./others.js";
import {ROLLOUTS, titleOf} from "./records.js";

const offered = (group, set) => t("steer.offered", {n: group.size, set: titleOf(set)});
const devices = (n) => t("n.devices", {n});
const open = (groups) => groups.reduce((sum, it) => sum + countsOf(it).open, 0);
const needed = ({size, success}) => neededOf(size, success);

/** The group that a resume starts at once, if there is one. */
const startedByResume = ({groups}) => (next(groups) && last(groups).ok >= needed(last(groups)) ? next(groups) : null);

function onResume({groups, set}) {
  const after = next(groups), before = last(groups);
  if (!after) {
    return t("steer.resumeLast");
  }
  return startedByResume({groups})
    ? t("steer.resumeStarts", {after: after.id, before: before.id, offered: offered(after, set)})
    : t("steer.resumeLater", {after: after.id, needed: needed(before), size: before.size, before: before.id, ok: before.ok});
}

/** `starts` is the group of devices that the command starts at once; `needs` is the group of operators that gives it. */
const COMMANDS = {
  start: {
    allowed: ({rollout}) => rollout.status === "ready",
    starts: ({groups}) => groups[0],
    says({rollout, groups, set}) {
      const rest = rollout.totalTargets - groups[0].size;
      const later = rest ? t("steer.startLater", {devices: devices(rest), groups: t("n.groups", {n: groups.length - 1})}) : t("steer.startOnly");
      return [t("steer.startSays", {offered: offered(groups[0], set)}), later];
    },
  },
  pause: {
    allowed: ({rollout}) => rollout.status === "running",
    says: ({groups}) => [t("steer.pauseSays"), t("steer.pauseOpen", {devices: devices(open(groups))})],
  },
  resume: {allowed: ({rollout}) => rollout.status === "paused", starts: startedByResume, says: (it) => [onResume(it)]},
  triggerNextGroup: {
    allowed: ({rollout, groups}) => rollout.status === "running" && next(groups),
    starts: ({groups}) => next(groups),
    says({groups, set}) {
      return [t("steer.triggerSays", {group: next(groups).id, offered: offered(next(groups), set)}), t("steer.triggerAnyway", {group: last(groups).id})];
    },
  },
  approve: {
    needs: "approve",
    allowed: ({rollout}) => rollout.status === "waiting_for_approval",
    says: ({rollout}) => [t("steer.approveSays", {name: rollout.name})],
  },
  deny: {
    needs: "approve",
    allowed: ({rollout}) => rollout.status === "waiting_for_approval",
    says: ({rollout}) => [t("steer.denySays", {name: rollout.name})],
  },
};

/** What is open of the devices of the group that starts: the sentences about it, and the actions that are handed out before. */
async function before({rollout, groups}, group) {
  if (!group) {
    return {sentences: [], older: []};
  }
  const found = await others(rollout, groups, group);
  const rest = groups.filter((it) => it.id > group.id).reduce((sum, it) => sum + it.size, 0);
  return {sentences: inSentences(found, group.size, rest), older: olderOpen(found)};
}

/** The groups as they are now: by the server itself, whatever was told of them before. */
const groupsNow = async ({id}) => (await ask("GET", `${ROLLOUTS}/${id}/deploygroups?limit=500`)).content;

/** Starts the next group, if that still is the one that was meant, and says which groups were started since. */
async function startNext(rollout, meant, page) {
  const found = next(await groupsNow(rollout));
  if (found?.id !== meant.id) {
    page.say("bad", t("steer.startedMeanwhile", {group: meant.id, name: rollout.name}));
    return page.refresh();
  }
  await ask("POST", `${ROLLOUTS}/${rollout.id}/triggerNextGroup`);
  // it is done, whether this can be read or not
  const groups = await groupsNow(rollout).catch(() => []);
  const started = groups.filter((it) => it.id >= meant.id && !isWaiting(it)).map((it) => it.id);
  const key = started.length > 1 ? "steer.nextMany" : "steer.nextOne";
  const which = started.length ? t(key, {groups: started.join(t("steer.and")), group: started[0]}) : "";
  page.say("ok", t("steer.nextDone", {name: rollout.name, which}));
  return page.refresh();
}

/** Asks once more, cancels first what was chosen to be, sends the command, and shows what became of it. */
async function steer(name, seen, page) {
  const {rollout} = seen, {says, starts} = COMMANDS[name], word = t(`steer.${name}`);
  page.say("ok", starts?.(seen) ? t("steer.looks") : "");
  const {sentences, older} = await before(seen, starts?.(seen));
  page.say();
  const choices = older.length ? [...waysToCancel(older, t("steer.thenGoOn")), ["leave", t("steer.leave")]] : [];
  const way = await sure(t("steer.question", {word, name: rollout.name}), [...says(seen), ...(starts ? heldWords() : []), ...sentences], word, choices);
  if (!way) {
    return;
  }
  if (way !== "yes" && way !== "leave" && !await cancelEach(older, way)) {
    page.say("bad", t("steer.notAll", {word: word.toLowerCase(), name: rollout.name}));
    return;
  }
  if (name === "triggerNextGroup") {
    return startNext(rollout, starts(seen), page);
  }
  await ask("POST", `${ROLLOUTS}/${rollout.id}/${name}`);
  page.say("ok", t("steer.done", {word: word.toLowerCase(), name: rollout.name}));
  page.refresh();
}

/** What is seldom the first thing to do: of a paused rollout that is to look at what failed. */
const PLAIN = ["deny", "pause", "resume"];

/** The buttons that a rollout's state allows, and its operator may press. */
export function buttons(seen, page) {
  return Object.entries(COMMANDS).filter(([, it]) => it.allowed(seen) && may(it.needs ?? "steer")).map(([name]) =>
    h("button", {"data-key": name, "data-command": name, class: PLAIN.includes(name) ? "" : "main",
      onclick: () => page.tried(() => steer(name, seen, page))}, t(`steer.${name}`)));
}
