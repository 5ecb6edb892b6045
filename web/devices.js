// Devices of a kind that a number of the first view counts: of a state, with a set, or silent.
import {all} from "./api.js";
import {h, link, p, pager, table} from "./drawing.js";
import {time} from "./happened.js";
import {ago, number, t, when} from "./language.js";
import {askConsole} from "./live.js";
import {TARGETS} from "./matching.js";
import {setOf, titleOf} from "./records.js";
import {sortChips, sorted} from "./sorting.js";

const SHOWN = 50;
const KEYS = {id: ([id]) => id, since: ([, at]) => String(at ?? 0)};
const COLUMNS = {id: "list.device", since: "list.since"};

/** The rows of a page, each an id and a moment, of how many, and when these were counted; no rows where the console is away. */
const pageOf = (rows, offset, sort, at) => ({total: rows?.length, rows: rows && sorted(rows, sort, KEYS).slice(offset, offset + SHOWN), at,
  columns: rows?.some(([, it]) => it) ? COLUMNS : {id: COLUMNS.id}});

/** A page of those that the console counted, or null where it is away. */
async function counted(asked, offset, sort) {
  const told = await askConsole(`/fwdesk/devices?${new URLSearchParams({...asked, offset, limit: SHOWN, ...(sort && {sort})})}`);
  return told && {total: told.total, rows: told.content.map((it) => [it.controllerId, null]), at: told.at, columns: {id: COLUMNS.id}};
}

async function ofState(state, offset, sort) {
  return await counted({state}, offset, sort)
    ?? pageOf((await all(TARGETS)).filter((it) => it.updateStatus === state).map((it) => [it.controllerId, null]), offset, sort);
}

async function found(query, offset, sort) {
  const [state, set, silent, lacks] = ["state", "set", "silent", "lacks"].map((it) => query.get(it));
  if (lacks) {
    return {title: t(lacks === "poll" ? "list.noPoll" : "list.noVersion"), ...await counted({lacks}, offset, sort)};
  }
  if (state) {
    return {title: t("list.state", {state: t(`target.${state}`)}), ...await ofState(state, offset, sort)};
  }
  if (set) {
    const told = await askConsole(`/fwdesk/versions?set=${Number(set)}`);
    return {title: t("list.set", {set: titleOf(await setOf(Number(set)))}), ...pageOf(told?.map((it) => [it.id, it.at]), offset, sort)};
  }
  const told = await askConsole(`/fwdesk/seen?silent=${Number(silent)}`);
  return {title: t("list.silent", {hours: Number(silent)}), ...pageOf(told && Object.entries(told), offset, sort)};
}

export const view = {
  title: ({title}) => title,
  still: true,
  load: async (_, query) => {
    const offset = Number(query.get("offset") ?? 0), sort = query.get("sort");
    return {...await found(query, offset, sort), query, offset, sort};
  },
  draw({rows, total, at, columns, query, offset, sort}) {
    const address = (more) => `#/devices?${new URLSearchParams({...Object.fromEntries(query), ...more})}`;
    const row = ([id, since]) => [link(`#/targets/${id}`, id), since ? h("span", {}, time(since), `, ${ago(since)}`) : ""];
    return !rows ? p("empty", t("watch.none"))
      : [p("facts", number(total)),
        total > 1 ? sortChips(columns, sort, (it) => address({sort: it, offset: 0})) : null,
        at ? p("hint", t("list.asOf", {at: when(at)})) : null,
        rows.length ? table(t("list.device"), [t("list.device"), t("list.since")], rows.map(row)) : null,
        pager(total, offset, SHOWN, (it) => address({offset: it}))];
  },
};
