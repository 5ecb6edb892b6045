// The list of rollouts, the newest first, and the pause of all that run.
import {all, beside, page as pageOf} from "./api.js";
import {cause, sum} from "./counts.js";
import {h, inWords, link, p, pager, sure} from "./drawing.js";
import {askedLine, pausedLine, whenOf} from "./happened.js";
import {heldBadge} from "./held.js";
import {nodes, t} from "./language.js";
import {ifSteers} from "./me.js";
import {groupsOf, ROLLOUTS, setOf, titleOf} from "./records.js";
import {stateBadge} from "./states.js";
import {firstSteps} from "./steps.js";
import {strip} from "./strip.js";
import {job} from "./work.js";

const SHOWN = 20;

// the groups of rollouts in which nothing goes on, by their number and state
const resting = new Map();

async function groupsIfNew({id, status}) {
  const key = `${id} ${status}`;
  const rests = status !== "running" && status !== "paused";
  if (rests && resting.has(key)) {
    return resting.get(key);
  }
  const groups = await groupsOf(id);
  if (rests) {
    resting.set(key, groups);
  }
  return groups;
}

function card({rollout, groups, set}) {
  const size = t("rollouts.size", {devices: t("n.devices", {n: rollout.totalTargets}), groups: t("n.groups", {n: rollout.totalGroups})});
  return h("li", {class: `card ${rollout.status}`, "data-key": rollout.id},
    h("div", {class: "line"}, h("h2", {}, link(`#/rollouts/${rollout.id}`, rollout.name)), stateBadge("rollout", rollout.status),
      heldBadge(rollout.status), whenOf(rollout)),
    p("facts", nodes("rollouts.for", {set: titleOf(set), size, filter: h("code", {}, rollout.targetFilterQuery)})),
    rollout.status === "paused" ? pausedLine(rollout) ?? p("cause", cause(groups)) : null,
    askedLine(rollout) ? p("under", askedLine(rollout)) : null,
    strip(rollout, groups),
    p("under", inWords(sum(groups))));
}

/** Pauses all rollouts that run, also those that the list doesn't show. */
async function pauseAll(page) {
  const running = (await all(ROLLOUTS)).filter((it) => it.status === "running");
  const names = running.map((it) => it.name).join(", ");
  if (!running.length) {
    page.say("ok", t("rollouts.noneRuns"));
  } else if (await sure(t("rollouts.pauseQuestion", {rollouts: t("n.rollouts", {n: running.length})}),
    [t("rollouts.pauses", {names}), t("rollouts.pauseGoesOn")], t("rollouts.pauseYes"))) {
    await job(t("rollouts.pauseAll"), running, (it) => it.name, (it) => beside("POST", `${ROLLOUTS}/${it.id}/pause`));
  }
  page.refresh();
}

export const view = {
  title: () => t("frame.rollouts"),
  async load(_, query) {
    const offset = Number(query.get("offset") ?? -1);
    let found = await pageOf(ROLLOUTS, Math.max(0, offset), SHOWN);
    if (offset < 0 && found.total > SHOWN) {
      found = await pageOf(ROLLOUTS, found.total - SHOWN, SHOWN);
    }
    const shown = [];
    for (const rollout of found.content) {
      shown.unshift({rollout, groups: await groupsIfNew(rollout), set: await setOf(rollout.distributionSetId)});
    }
    return {shown, total: found.total, offset: offset < 0 ? Math.max(0, found.total - SHOWN) : offset};
  },
  draw({shown, total, offset}, page) {
    const none = [p("empty", t("rollouts.none")), firstSteps()];
    const someRun = total > SHOWN || shown.some((it) => it.rollout.status === "running");
    return [
      ifSteers(() => p("buttons", h("a", {class: "button main", href: "#/rollouts/new"}, t("plan.title")),
        someRun ? h("button", {id: "pause-all", onclick: () => page.tried(() => pauseAll(page))}, t("rollouts.pauseAll")) : null)),
      shown.length ? h("ul", {class: "cards"}, shown.map(card)) : none,
      total > SHOWN ? pager(total, offset, SHOWN, (at) => `#/rollouts?offset=${at}`) : null,
    ];
  },
};
