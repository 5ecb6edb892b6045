// A rollout: its numbers, its groups, what it allows to be done.
import {get} from "./api.js";
import {cancelOpenButton} from "./cancel.js";
import {cause, countsOf, isAtErrorThreshold, limit, needed, percent, sum} from "./counts.js";
import {bar, h, legend, link, p, PARTS, partWord} from "./drawing.js";
import {exportButtons} from "./exports.js";
import {actsLine, askedLine, groupLine, history, pauseOf, seeFailed, sinceOf, standsOf} from "./happened.js";
import {heldBadge} from "./held.js";
import {nodes, t} from "./language.js";
import {ifSteers} from "./me.js";
import {groupsOf, ROLLOUTS, setOf, titleOf} from "./records.js";
import {rollbackButton} from "./rollback.js";
import {stateBadge} from "./states.js";
import {buttons} from "./steering.js";
import {strip} from "./strip.js";

const countsIn = (counts, size) =>
  PARTS.filter((it) => counts[it]).map((it) => t("rollout.share", {count: counts[it], part: partWord(it), percent: percent(counts[it], size)})).join(", ");

const thresholds = ({size, success, error, ok, bad}) =>
  t("rollout.thresholds", {needed: needed(size, success), limit: limit(size, error), size, success, error, ok, bad});

function groupRow(rollout, group) {
  const counts = countsOf(group);
  return h("li", {class: isAtErrorThreshold(group) ? "group faulty" : "group", "data-key": group.id, "data-group": group.id},
    h("div", {class: "line"}, h("h3", {}, t("group.name", {group: group.id})), stateBadge("group", group.status), heldBadge(group.status),
      link(`#/rollouts/${rollout.id}/groups/${group.id}`, t("n.devices", {n: group.size}))),
    bar(counts, t("group.name", {group: group.id}), group),
    p("under", countsIn(counts, group.size)),
    p("under thresholds", thresholds(group)), groupLine(rollout, group));
}
export const view = {
  title: ({rollout}) => rollout.name,
  async load([id]) {
    const rollout = await get(`${ROLLOUTS}/${id}`);
    return {rollout, groups: await groupsOf(id), set: await setOf(rollout.distributionSetId)};
  },
  draw({rollout, groups, set}, page) {
    const total = sum(groups), faulty = groups.filter(isAtErrorThreshold), rest = groups.filter((it) => !isAtErrorThreshold(it));
    const list = (label, those) => h("ol", {class: "groups", "aria-label": label}, those.map((it) => groupRow(rollout, it)));
    return [
      p("line", stateBadge("rollout", rollout.status), heldBadge(rollout.status), sinceOf(rollout),
        h("span", {class: "facts"}, nodes("rollout.for", {set: titleOf(set), filter: h("code", {}, rollout.targetFilterQuery)}))),
      rollout.status === "paused" ? pauseOf(rollout) ?? p("cause", cause(groups)) : null,
      standsOf(rollout),
      askedLine(rollout) ? p("cause", askedLine(rollout)) : null,
      actsLine(rollout),
      p("buttons", seeFailed(rollout, groups), buttons({rollout, groups, set}, page), rollbackButton(rollout, total, page),
        total.open ? cancelOpenButton({rollout, set}, page) : null,
        ifSteers(() => link(`#/rollouts/new?like=${rollout.id}`, t("rollout.like")))),
      faulty.length ? h("section", {id: "faulty", "aria-label": t("rollout.faulty")}, h("h2", {}, t("rollout.faulty")),
        list(t("rollout.faulty"), faulty)) : null,
      h("section", {class: "card", "aria-label": t("rollout.all")}, bar(total, t("rollout.all")), legend(total),
        groups.length > 1 ? strip(rollout, groups) : null),
      list(t("rollout.groups"), rest),
      p("files", exportButtons(rollout, groups, page)),
      history(rollout),
    ];
  },
};
