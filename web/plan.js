// A new rollout: what it hands out, to whom, and the groups as they will be cut.
import {all, ask, get} from "./api.js";
import {countsOf} from "./counts.js";
import {byPercentages, evenly, percentagesOf} from "./cut.js";
import {bar, field, h, link, p, settle, text, typed} from "./drawing.js";
import {nodes, t} from "./language.js";
import {GROUPS} from "./limits.js";
import {filterField} from "./matching.js";
import {may} from "./me.js";
import {firstSteps} from "./steps.js";
import {groupsOf, ROLLOUTS, SETS, titleOf} from "./records.js";

const EVEN = {even: true, count: 3, success: 80, error: 10, rows: []};
const CANARY = [[1, 90, 5], [10, 90, 5], [100, 80, 10]];
const row = ([percentage, success, error]) => ({percentage, success, error});

/** The form's groups, like those of another rollout. */
function like(groups) {
  const sizes = groups.map((it) => it.size);
  const [{success, error}] = groups;
  const asEven = evenly(sizes.reduce((sum, it) => sum + it, 0), sizes.length);
  const even = groups.every((it, k) => it.size === asEven[k] && it.success === success && it.error === error);
  return {even, count: sizes.length, success, error, rows: even ? [] : percentagesOf(sizes).map((it, k) => row([it, groups[k].success, groups[k].error]))};
}

/** The groups that a plan makes of so many devices, or in words why it makes none. */
function cutOf(plan, total) {
  const count = plan.even ? plan.count : plan.rows.length;
  const isPercentage = (it) => Number.isInteger(it) && it >= 1 && it <= 100;
  if (!(count >= 1 && count <= GROUPS)) {
    return t("plan.count", {most: GROUPS});
  }
  if (plan.even) {
    return total < count ? t("plan.cantFill", {devices: t("n.devices", {n: total}), groups: t("n.groups", {n: count})})
      : evenly(total, count).map((size) => ({size, success: plan.success, error: plan.error}));
  }
  if (!plan.rows.every((it) => [it.percentage, it.success, it.error].every(isPercentage))) {
    return t("plan.whole");
  }
  const sizes = byPercentages(total, plan.rows.map((it) => it.percentage));
  const empty = sizes.indexOf(0);
  return empty < 0 ? plan.rows.map(({success, error}, k) => ({size: sizes[k], success, error}))
    : t(empty ? "plan.takeAll" : "plan.noneMatches", {group: empty + 1, total});
}

function drawn(plan, total) {
  const groups = total === null ? t("plan.typeFilter") : cutOf(plan, total);
  if (typeof groups === "string") {
    return [p("hint", groups)];
  }
  const asWaiting = (size) => countsOf({size, ok: 0, bad: 0, gone: 0, status: "ready"});
  const cell = (it, k) => h("li", {}, bar(asWaiting(it.size), t("group.name", {group: k + 1}), it),
    h("span", {class: "under"}, `${k + 1} · ${t("n.devices", {n: it.size})}`));
  return [h("ul", {class: "strip", "aria-label": t("plan.groupsLabel")}, groups.map(cell))];
}

const conditions = ({success, error}) => ({
  successCondition: {condition: "THRESHOLD", expression: String(success)},
  errorCondition: {condition: "THRESHOLD", expression: String(error)},
});

/** The body's part about groups: even ones, or each by itself, of which the last takes the rest. */
const groupsIn = (plan) => (plan.even ? {amountGroups: plan.count, ...conditions(plan)}
  : {groups: plan.rows.map((it) => ({targetPercentage: it.percentage, ...conditions(it)})), ...conditions(plan.rows.at(-1))});

const created = ({name, totalTargets, totalGroups}) =>
  t("plan.created", {name, devices: t("n.devices", {n: totalTargets}), groups: t("n.groups", {n: totalGroups})});

async function create({name, set, filter}, plan, page) {
  const rollout = await ask("POST", ROLLOUTS, {name, distributionSetId: Number(set), targetFilterQuery: filter, ...groupsIn(plan)});
  page.go(`#/rollouts/${rollout.id}`, created(rollout));
}

/** The controls of the groups. They keep the plan as it is typed, and call `changed` after each change. */
function groupControls(plan, changed) {
  const number_ = (of, key, most, more = {}) => {
    const oninput = ({target}) => {
      of[key] = target.valueAsNumber;
      changed();
    };
    return h("input", {type: "number", min: 1, max: most, required: true, value: of[key], class: key, oninput, ...more});
  };
  const even = h("fieldset", {id: "even", class: "row"}, h("legend", {}, t("plan.evenLegend")),
    field("rollout-groups", t("plan.groups"), number_(plan, "count", GROUPS), t("plan.groupsHint", {most: GROUPS})),
    field("rollout-success", t("plan.success"), number_(plan, "success", 100), t("plan.successHint")),
    field("rollout-error", t("plan.error"), number_(plan, "error", 100), t("plan.errorHint")));
  const rows = h("ol", {class: "own"});
  const more = h("button", {type: "button", id: "add-group", onclick: () => add()}, t("plan.addGroup"));
  const own = h("fieldset", {id: "own"}, h("legend", {}, t("plan.ownLegend")), rows, more);
  const ways = h("p", {class: "buttons", role: "group", "aria-label": t("plan.ways")});
  let keys = 0;

  function rowOf(it, k) {
    const rest = k === plan.rows.length - 1;
    it.key ??= keys += 1;
    const id = `group-${it.key}`;
    const take = () => {
      plan.rows.splice(plan.rows.indexOf(it), 1);
      show();
      rows.querySelector("input:enabled").focus();
    };
    return h("li", {class: "row", "data-key": `${it.key} ${rest}`, "data-row": k + 1}, h("strong", {}, t("group.name", {group: k + 1})),
      field(`${id}-size`, t(rest ? "plan.rest" : "plan.left"), number_(it, "percentage", 100, {disabled: rest})),
      field(`${id}-success`, t("plan.successShort"), number_(it, "success", 100)), field(`${id}-error`, t("plan.errorShort"), number_(it, "error", 100)),
      plan.rows.length > 1 ? h("button", {type: "button", class: "small", "aria-label": t("plan.takeOut", {group: k + 1}), onclick: take}, "✕") : null);
  }

  function show() {
    if (!plan.even) {
      plan.rows.at(-1).percentage = 100;
    }
    for (const [part, isShown] of [[even, plan.even], [own, !plan.even]]) {
      part.hidden = !isShown;
      part.disabled = !isShown;
    }
    const way = (id, pressed, words, onclick) => h("button", {type: "button", id, "aria-pressed": String(pressed), onclick}, words);
    settle(ways, [way("way-even", plan.even, t("plan.even"), () => choose(null)),
      way("way-own", !plan.even, t("plan.own"), () => choose(plan.rows.length ? plan.rows : [row([100, plan.success, plan.error])])),
      way("way-canary", false, t("plan.canary"), () => choose(CANARY.map(row)))]);
    settle(rows, plan.rows.map(rowOf));
    changed();
  }

  function choose(chosen) {
    plan.even = !chosen;
    plan.rows = chosen ?? plan.rows;
    show();
  }

  function add() {
    const {success, error} = plan.rows.at(-1);
    plan.rows.splice(-1, 0, row([10, success, error]));
    show();
    rows.lastChild.previousSibling.querySelector("input").focus();
  }

  return {parts: [ways, even, own], show};
}

function planForm({sets, old, chosen, filter, plan}, page) {
  let matching = null;
  const preview = h("div", {id: "plan", "aria-live": "polite"});
  const controls = groupControls(plan, () => settle(preview, drawn(plan, matching)));
  const form = h("form", {id: "new-rollout"},
    field("rollout-name", t("plan.name"), text("name")),
    field("rollout-set", t("plan.set"), h("select", {name: "set", required: true},
      sets.map((it) => h("option", {value: it.id, selected: it.id === (chosen ?? old?.distributionSetId)}, titleOf(it))).reverse())),
    filterField("rollout-filter", filter, (total) => {
      matching = total;
      controls.show();
    }),
    controls.parts, preview,
    p("buttons", h("button", {class: "main"}, t("plan.create")), link("#/rollouts", t("plan.back"))));
  form.onsubmit = (event) => {
    event.preventDefault();
    page.tried(() => create(typed(form), plan, page));
  };
  controls.show();
  return form;
}

export const view = {
  title: ({old}) => (old ? t("plan.titleLike", {name: old.name}) : t("plan.title")),
  still: true,
  async load(_, query) {
    const sets = await all(SETS);
    const old = query.has("like") ? await get(`${ROLLOUTS}/${Number(query.get("like"))}`) : null;
    const plan = old ? like(await groupsOf(old.id)) : {...EVEN};
    const chosen = query.has("set") ? Number(query.get("set")) : null;
    return {sets, old, plan, chosen, filter: query.get("q") ?? old?.targetFilterQuery ?? "name==*"};
  },
  draw(data, page) {
    const none = () => [p("empty", nodes("plan.needsSet", {link: link("#/firmware", t("plan.makeFirst"))})), firstSteps()];
    return [may("steer") ? data.sets.length ? page.kept("form", () => planForm(data, page)) : none() : p("empty", t("me.noSteering"))];
  },
};
