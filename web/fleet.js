// The fleet: targets by a filter, the tags of all of them or of a list, the import of a file.
import {all, page as pageOf} from "./api.js";
import {field, h, link, p, pager, settle, table, typed} from "./drawing.js";
import {importForm} from "./imports.js";
import {nodes, number, t, when} from "./language.js";
import {isWord} from "./limits.js";
import {askConsole, lastTold} from "./live.js";
import {filterField, matching, searched} from "./matching.js";
import {ifSteers, may} from "./me.js";
import {sortChips, sorted} from "./sorting.js";
import {stateBadge} from "./states.js";
import {firstSteps} from "./steps.js";
import {tagForm} from "./tags.js";

const SHOWN = 50;
const TAGS = 20;
const HEADS = ["list.device", "list.name", "list.stateHead", "list.tags", "list.attributes"];

// the worst first
const STATES = ["error", "pending", "in_sync", "unknown"];
const KEYS = {id: (it) => it.controllerId, name: (it) => it.name, state: (it) => String(STATES.indexOf(it.updateStatus))};
const COLUMNS = {id: "list.device", name: "list.name", state: "list.stateHead"};

const attributesOf = (target) => Object.entries(target.attributes).map(([key, value]) => h("span", {class: "pair"}, h("span", {}, key), ` ${value}`));
const tagsOf = (target) => target.tags.map((it) => h("span", {class: "tag"}, it));

const pageIn = (whole, offset) => ({content: whole.slice(offset, offset + SHOWN), total: whole.length});

/** A filter that asks for a tag too, or no longer. */
function withTag(filter, tag) {
  const own = `tag==${tag}`, parts = filter.split(";");
  if (parts.includes(own)) {
    return parts.filter((it) => it !== own).join(";");
  }
  const before = searched(filter);
  return before ? `${before.includes(",") ? `(${before})` : before};${own}` : own;
}

/** The ways to a part of the list: states and versions, with their numbers where the console counts them, and the tags of what is shown. */
function chips(content, filter, address) {
  const counted = lastTold();
  const chip = (href, words, count, isCurrent = false) => h("a", {href, "aria-current": isCurrent ? "true" : "false"}, words,
    count === undefined ? "" : ` ${number(count)}`);
  const states = STATES.map((it) => chip(`#/devices?state=${it}`, t(`target.${it}`), counted?.fleet ? counted.fleet.states[it] ?? 0 : undefined));
  const versions = (counted?.versions ?? []).map(({set, devices}) => chip(`#/devices?set=${set.id}`, `${set.name} ${set.version}`, devices));
  const tags = [...new Set(content.flatMap((it) => it.tags))].sort().slice(0, TAGS);
  const row = (id, words, found) => (found.length ? h("nav", {class: "choices states", id, "aria-label": t(words)},
    h("span", {class: "under"}, t(words)), found) : null);
  return [row("states", "now.states", states), row("versions", "now.versions", versions), row("tags", "fleet.byTag",
    tags.map((it) => chip(address(withTag(filter, it)), it, undefined, filter.split(";").includes(`tag==${it}`))))];
}

function shownTargets({refusal, content, total}, filter) {
  const row = (it) => [link(`#/targets/${it.controllerId}`, it.controllerId), it.name, stateBadge("target", it.updateStatus), tagsOf(it), attributesOf(it)];
  if (refusal) {
    return p("notice bad", refusal.sentence);
  }
  if (total) {
    return table(t("fleet.targets"), HEADS.map((it) => t(it)), content.map(row));
  }
  return filter ? p("empty", t("fleet.none")) : [p("empty", t("fleet.empty")), firstSteps()];
}

/** The ids of a list that was pasted, each once; what is no id is told. */
function pasted(list, told) {
  const words = [...new Set(list.split(/[\s,;]+/).filter(Boolean))];
  const wrong = words.filter((it) => !isWord(it));
  settle(told, wrong.length ? [p("notice bad", t("tag.wrong", {n: wrong.length, words: wrong.slice(0, 3).join(", ")}))] : []);
  return wrong.length ? [] : words;
}

function listForm(page) {
  const list = h("textarea", {rows: 4, class: "code", spellcheck: "false"});
  const told = h("div", {"aria-live": "polite"});
  return h("details", {class: "card"}, h("summary", {}, t("tag.list")),
    field("tag-list", t("tag.ids"), list, t("tag.idsHint")),
    tagForm("tag-pasted", async () => pasted(list.value, told), page), told);
}

export const view = {
  title: () => t("frame.fleet"),
  /** In another order than that of ids the console has those that match, and else all of these are asked for, once. */
  async load(_, query, before) {
    const filter = query.get("q") ?? "";
    const offset = Number(query.get("offset") ?? 0);
    const sort = query.get("sort");
    const none = (refusal) => {
      if (refusal.number !== 11) {
        throw refusal;
      }
      return {refusal, content: [], total: 0};
    };
    const text = searched(filter);
    const told = sort ? await askConsole(`/fwdesk/devices?${new URLSearchParams({...(text && {q: text}), sort, offset, limit: SHOWN})}`) : null;
    if (told) {
      return {filter, offset, sort, targets: told};
    }
    if (sort) {
      const whole = before?.whole && before.filter === filter ? before.whole : await all(matching(text)).catch(none);
      return {filter, offset, sort, whole, targets: whole.refusal ? whole : pageIn(sorted(whole, sort, KEYS), offset)};
    }
    return {filter, offset, sort, targets: await pageOf(matching(text), offset, SHOWN).catch(none)};
  },
  draw({filter, offset, sort, targets}, page) {
    const address = (at, text = filter, order = sort) => `#/targets?${new URLSearchParams({q: text, offset: at, ...(order && {sort: order})})}`;
    const search = (event) => {
      event.preventDefault();
      page.go(address(0, typed(event.target).filter));
    };
    return [
      page.kept("filter", () => h("form", {onsubmit: search, role: "search"}, filterField("fleet-filter", filter, undefined, searched),
        p("buttons", h("button", {class: "main"}, t("fleet.find"))))),
      ifSteers(() => [page.kept("import", () => importForm(page)), page.kept("list", () => listForm(page))]),
      chips(targets.content, filter, (text) => address(0, text)),
      targets.total > 1 ? sortChips(COLUMNS, sort, (order) => address(0, filter, order)) : null,
      targets.at ? p("hint", t("list.asOf", {at: when(targets.at)})) : null,
      shownTargets(targets, filter),
      pager(targets.total, offset, SHOWN, address),
      targets.total && may("steer") ? page.kept("tag", () => h("details", {class: "card"}, h("summary", {}, t("tag.all")),
        p("hint", filter ? nodes("tag.matching", {filter: h("code", {}, filter)}) : t("tag.whole")),
        tagForm("tag-matching", async () => (await all(matching(searched(filter)))).map((it) => it.controllerId), page))) : null,
    ];
  },
};
