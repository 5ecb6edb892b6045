// Rolls back: the devices that succeeded in a rollout get the set that each had before, as `fwdesk-ctl rollback` does it.
import {all, ask, beside, get} from "./api.js";
import {h, sure} from "./drawing.js";
import {heldWords} from "./held.js";
import {listed, t} from "./language.js";
import {TARGETS} from "./matching.js";
import {ifSteers} from "./me.js";
import {actionsOf, ROLLOUTS, setOf, titleOf} from "./records.js";
import {job} from "./work.js";

const SUCCESS = "90", ERROR = "5";
const nameOf = (rollout, set) => `rollback ${rollout.id} to set ${set}`;
const tagOf = (rollout, set) => `rollback-${rollout.id}-${set}`;

/** The actions that each device finished, with their sets; the rollbacks of this rollout aren't looked at. */
async function finished(rollout, rollouts) {
  const found = new Map();
  for (const it of rollouts) {
    if (["running", "paused", "finished"].includes(it.status) && !it.name.startsWith(`rollback ${rollout.id} to set `)) {
      for (const {id, target} of (await actionsOf(it.id)).filter(({status}) => status === "finished")) {
        found.set(target, [...(found.get(target) ?? []), {id, set: it.distributionSetId}]);
      }
    }
  }
  return found;
}

/** Where each device goes that succeeded: to which set, and how many are left out, since a newer one finished or none was before. */
async function findWays(rollout, rollouts) {
  const history = await finished(rollout, rollouts), to = new Map();
  let newer = 0, without = 0;
  for (const {id, target} of (await actionsOf(rollout.id)).filter(({status}) => status === "finished")) {
    const those = history.get(target) ?? [];
    const before = those.filter((it) => it.id < id && it.set !== rollout.distributionSetId).sort((one, other) => one.id - other.id).at(-1);
    if (those.some((it) => it.id > id)) {
      newer += 1;
    } else if (before) {
      to.set(before.set, [...(to.get(before.set) ?? []), target]);
    } else {
      without += 1;
    }
  }
  return {to, newer, without};
}

/** Lets these devices have a tag, and nobody else; answers whether all have it. */
async function tagAlone(tag, wanted) {
  const there = (await all(`${TARGETS}?q=${encodeURIComponent(`tag==${tag}`)}`)).map((it) => it.controllerId);
  const send = (method) => (it) => beside(method, `${TARGETS}/${it}/tags/${tag}`);
  const off = there.filter((it) => !wanted.includes(it)), on = wanted.filter((it) => !there.includes(it));
  const offDone = !off.length || await job(t("tag.takeJob", {tag}), off, (it) => it, send("DELETE"));
  const onDone = !on.length || await job(t("tag.putJob", {tag}), on, (it) => it, send("POST"));
  const has = (await get(`${TARGETS}?q=${encodeURIComponent(`tag==${tag}`)}&offset=0&limit=1`)).total;
  return offDone && onDone && has === wanted.length;
}

/** Plans and starts the rollout of one set, or goes on with the one that was planned before. */
async function goBack(rollout, set, devices, rollouts) {
  const name = nameOf(rollout, set), tag = tagOf(rollout, set), percent = (expression) => ({condition: "THRESHOLD", expression});
  let made = rollouts.find((it) => it.name === name);
  if (!made) {
    if (!await tagAlone(tag, devices)) {
      throw new Error(t("rollback.notTagged", {name, tag}));
    }
    const plan = {name, distributionSetId: set, targetFilterQuery: `tag==${tag}`, amountGroups: 1};
    made = await ask("POST", ROLLOUTS, {...plan, successCondition: percent(SUCCESS), errorCondition: percent(ERROR)});
  }
  if (made.status === "ready") {
    await ask("POST", `${ROLLOUTS}/${made.id}/start`);
  }
  if (made.status !== "waiting_for_approval") {
    await tagAlone(tag, []);
  }
  return made;
}

async function press(rollout, page) {
  const rollouts = await all(ROLLOUTS), {to, newer, without} = await findWays(rollout, rollouts);
  const left = [newer ? t("rollback.newer", {n: newer}) : null, without ? t("rollback.without", {n: without}) : null].filter(Boolean);
  if (!to.size) {
    page.say("bad", [t("rollback.nobody"), ...left].join(" "));
    return;
  }
  const way = async ([set, devices]) => t("rollback.way", {devices: t("n.devices", {n: devices.length}), set: titleOf(await setOf(set))});
  const ways = await Promise.all([...to].map(way));
  if (!await sure(t("rollback.title", {name: rollout.name}), [...ways, ...left, t("rollback.says"), ...heldWords()], t("rollback.yes"))) {
    return;
  }
  const made = [];
  for (const [set, devices] of to) {
    made.push(await goBack(rollout, set, devices, rollouts));
  }
  const waits = made.some((it) => it.status === "waiting_for_approval");
  page.go(`#/rollouts/${made[0].id}`, t(waits ? "rollback.waits" : "rollback.done", {names: listed(made.map((it) => it.name))}));
}

/** The button, of a rollout that hands nothing to more devices and of which some succeeded. */
export const rollbackButton = (rollout, total, page) => (["paused", "finished"].includes(rollout.status) && total.ok
  ? ifSteers(() => h("button", {"data-key": "rollback", id: "rollback", onclick: () => page.tried(() => press(rollout, page))}, t("rollback.yes"))) : null);
