// The members of a group by their state, the failed ones first, with the last words of each and how often they were said.
import {beside, get} from "./api.js";
import {cancelOpenButton} from "./cancel.js";
import {countsOf} from "./counts.js";
import {bar, h, legend, link, p, pager, table} from "./drawing.js";
import {nodes, number, t} from "./language.js";
import {ifSteers} from "./me.js";
import {actionsOf, membersOf, ROLLOUTS, setOf} from "./records.js";
import {sortChips, sorted} from "./sorting.js";
import {stateBadge} from "./states.js";
import {tagForm} from "./tags.js";
import {each} from "./work.js";

const SHOWN = 50;
const HEADS = ["list.device", "list.name", "members.here", "members.wordsLabel", "members.history"];
const COUNTED = 12;
// before its rollout is started a member has no action
const STATES = ["error", "canceling", "running", "canceled", "finished", "scheduled", "none"];

const COLUMNS = {id: "list.device", name: "list.name", state: "members.here"};
const keysOf = (names) => ({id: (it) => it.target, name: (it) => names.get(it.target) ?? "", state: (it) => String(STATES.indexOf(it.status))});

// what devices said of actions that failed, by their number: it stays as it is, since the action is closed
const lastWords = new Map();
let reading = false;

// the devices that the table has now, on all its pages
let current = [];

/** The last entry of a history that has details, as one text. */
async function readWords({target, id}) {
  const {content} = await beside("GET", `/rest/v1/targets/${target}/actions/${id}/status?limit=500`);
  lastWords.set(id, content.findLast((it) => it.details.length)?.details.join(" · ") ?? t("members.silent"));
}

/** Reads the histories of those that failed, each once and a few at a time, for as long as the view is shown. */
async function readAll(rows, page) {
  const missing = rows.filter((it) => it.status === "error" && !lastWords.has(it.id));
  const here = page.here();
  if (reading || !missing.length) {
    return;
  }
  reading = true;
  let drawn = performance.now(), failed = false;
  const goes = () => !failed && page.here() === here;
  await each(missing, async (it) => {
    await readWords(it).catch(() => (failed = true));
    if (goes() && performance.now() - drawn > 1000) {
      page.redraw();
      drawn = performance.now();
    }
  }, goes);
  reading = false;
  // where the server doesn't answer they are read when it does, by the next look
  if (!failed) {
    page.redraw();
  }
}

/** How often each of the last words was said, the most frequent first. */
function counted(failed) {
  const counts = new Map();
  failed.filter((it) => lastWords.has(it.id)).forEach(({id}) => counts.set(lastWords.get(id), (counts.get(lastWords.get(id)) ?? 0) + 1));
  return [...counts].sort(([one, a], [other, b]) => b - a || (one < other ? -1 : 1));
}

function wordsOf(rows, address) {
  const failed = rows.filter((it) => it.status === "error");
  const read = failed.filter((it) => lastWords.has(it.id)).length;
  const found = counted(failed);
  const entry = ([words, count]) => h("li", {"data-words": count}, h("strong", {}, number(count)), " ", link(address({state: "error", words}), words));
  return failed.length ? h("section", {class: "card", "aria-label": t("members.wordsLabel")}, h("h2", {}, t("members.words")),
    read < failed.length ? h("p", {class: "hint", "data-read": read}, t("members.read", {read, failed: failed.length})) : null,
    h("ul", {class: "words"}, found.slice(0, COUNTED).map(entry)),
    found.length > COUNTED ? p("hint", t("members.more", {n: found.length - COUNTED})) : null) : null;
}

const without = (id, group) => ({target: id, id: null, group, status: "none"});

export const view = {
  title: ({rollout, group}) => t("group.of", {group: group.id, name: rollout.name}),
  /** The table of actions is asked for once, and again where the group's counts changed; who is a member never changes. */
  async load([id, group_], query, before) {
    const rollout = before?.rollout ?? await get(`${ROLLOUTS}/${id}`);
    const set = await setOf(rollout.distributionSetId);
    const group = await get(`${ROLLOUTS}/${id}/deploygroups/${group_}`);
    const names = before?.names ?? new Map((await membersOf(id, group_)).map((it) => [it.controllerId, it.name]));
    const as = JSON.stringify(group);
    const actions = before?.as === as ? before.actions : (await actionsOf(id)).filter((it) => it.group === group.id);
    return {rollout, set, group, names, as, actions, query};
  },
  draw({rollout, set, group, names, actions, query}, page) {
    const [state, words, sort, offset] = [query.get("state"), query.get("words"), query.get("sort"), Number(query.get("offset") ?? 0)];
    const kept = {...(state && {state}), ...(words && {words}), ...(sort && {sort})};
    const address = (more) => `#/rollouts/${rollout.id}/groups/${group.id}?${new URLSearchParams(more)}`;
    const all = (actions.length ? [...actions] : [...names.keys()].map((it) => without(it, group.id)))
      .sort((one, other) => STATES.indexOf(one.status) - STATES.indexOf(other.status));
    const rows = sorted(all, sort, keysOf(names)).filter((it) => (!state || it.status === state) && (!words || lastWords.get(it.id) === words));
    const count = (it) => all.filter(({status}) => status === it).length;
    const choice = (it, text, counts) =>
      h("a", {href: address(it ? {state: it} : {}), "aria-current": it === state && !words ? "page" : "false"}, `${text} ${number(counts)}`);
    const row = ({target, id, status}) => [link(`#/targets/${target}`, target), names.get(target) ?? "", stateBadge("action", status),
      lastWords.get(id) ?? "", id ? link(`#/targets/${target}/actions/${id}`, t("action.inText", {id: String(id)})) : t("members.noAction")];
    current = rows.map((it) => it.target);
    readAll(all, page);
    return [
      h("p", {}, link(`#/rollouts/${rollout.id}`, `← ${rollout.name}`)),
      bar(countsOf(group), t("group.name", {group: group.id}), group),
      legend(countsOf(group)),
      countsOf(group).open ? p("buttons", cancelOpenButton({rollout, set, group}, page)) : null,
      wordsOf(all, address),
      h("nav", {class: "choices states", "aria-label": t("members.states")}, choice(null, t("members.all"), all.length),
        STATES.filter(count).map((it) => choice(it, t(`action.${it}`), count(it)))),
      words ? p("line", nodes("members.with", {words: h("strong", {}, words)})) : null,
      rows.length > 1 ? sortChips(COLUMNS, sort, (it) => address({...kept, sort: it})) : null,
      table(t("members.table"), HEADS.map((it) => t(it)), rows.slice(offset, offset + SHOWN).map(row)),
      pager(rows.length, offset, SHOWN, (it) => address({...kept, offset: it})),
      ifSteers(() => page.kept("tag", () => h("details", {class: "card"}, h("summary", {}, t("tag.all")),
        p("hint", t("tag.members")), tagForm("tag-members", async () => current, page, rollout.id)))),
    ];
  },
};
