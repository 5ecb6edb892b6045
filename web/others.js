// What stands before an offer: of several open actions a device is offered the oldest, so what other rollouts left open goes first.
import {t} from "./language.js";
import {actionsOf, membersOf, setOf, titleOf, unfinished} from "./records.js";
import {isWaiting} from "./counts.js";

/** The devices of a group that starts, and of those behind it, each with its group and the number of its action: before the start the next one. */
async function waiting({id, status}, groups) {
  const those = new Set(groups.filter(isWaiting).map((it) => it.id));
  if (status !== "ready") {
    return new Map((await actionsOf(id)).filter((it) => those.has(it.group)).map((it) => [it.target, it]));
  }
  const found = new Map();
  for (const group of those) {
    (await membersOf(id, group)).forEach((it) => found.set(it.controllerId, {group, id: Infinity}));
  }
  return found;
}

const parts = (found, test) => {
  const [now, later] = [[], []];
  found.filter(test).forEach((it) => (it.own.now ? now : later).push(it));
  return {now, later, count: now.length + later.length};
};

/** What one other rollout has open of these devices: what goes before their own action, what is behind it, what comes of itself. */
function beside(rollout, set, actions, own, group) {
  const found = actions.filter((it) => own.has(it.target)).map((it) => ({...it, own: {...own.get(it.target), now: own.get(it.target).group === group}}));
  const older = (it) => it.id < it.own.id;
  return {
    rollout,
    set,
    handed: parts(found, (it) => it.status === "running" && older(it)),
    asked: parts(found, (it) => it.status === "canceling" && older(it)),
    behind: parts(found, (it) => it.status === "running" && !older(it)),
    coming: parts(found, (it) => it.status === "scheduled" && rollout.status === "running"),
  };
}

/** What other rollouts have open of the devices of a group that is to be started, and of the groups behind it. */
export async function others(rollout, groups, group) {
  const open = [];
  for (const other of await unfinished()) {
    if (other.id !== rollout.id) {
      open.push([other, await setOf(other.distributionSetId), await actionsOf(other.id)]);
    }
  }
  const own = open.length ? await waiting(rollout, groups) : new Map();
  return open.map(([other, set, actions]) => beside(other, set, actions, own, group.id))
    .filter((it) => it.handed.count || it.asked.count || it.behind.now.length || it.coming.count);
}

const share = (part, size) => t("counts.of", {part, size});

/** What was found, in sentences. `size` is of the group, `rest` of those behind it. */
export function inSentences(found, size, rest) {
  return found.flatMap(({rollout, set, handed, asked, behind, coming}) => {
    const values = {rollout: t("others.rollout", {id: String(rollout.id), name: rollout.name}), set: titleOf(set)};
    const said = [];
    if (handed.count) {
      const {now: {length: now}, later: {length: later}} = handed;
      const more = later ? t("others.behind", {share: share(later, rest)}) : "";
      said.push(now ? `${t("others.handed", {...values, n: now, share: share(now, size)})}${more}`
        : t("others.handedBehind", {...values, n: later, share: share(later, rest)}));
    }
    if (asked.count) {
      said.push(t("others.asked", {...values, n: asked.count}));
    }
    if (behind.now.length) {
      said.push(t("others.newer", {...values, share: share(behind.now.length, size)}));
    }
    if (coming.count) {
      said.push(t("others.coming", {...values, count: coming.count}));
    }
    return said;
  });
}

/** The actions that are handed out before, also those whose devices are asked to give them up. */
export const olderOpen = (found) => found.flatMap(({handed, asked}) => [handed, asked].flatMap(({now, later}) => [...now, ...later]));
