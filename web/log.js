// What happened, and who changed what: as the console saw it, with filters, and as files.
import {urlOf} from "./place.js";
import {field, h, link, p, table, typed} from "./drawing.js";
import {happenedWords, time} from "./happened.js";
import {t, when} from "./language.js";
import {askConsole, lastTold} from "./live.js";

const SHOWN = 50;
const FILTERS = {happened: ["kind", "rollout"], audit: ["who", "rollout", "refused"]};
const KINDS = "paused stands running finished made group held released desk console clock denied ready".split(" ");
const RESULTS = [["", "log.both"], ["0", "log.done"], ["1", "log.refused"]];
const TITLES = {happened: "happened.title", audit: "log.audit"};
const HEADS = {happened: ["log.when", "log.what", "log.who"], audit: ["log.when", "log.who", "log.from", "log.what", "log.result"]};
const PATHS = {happened: "/fwdesk/history", audit: "/fwdesk/audit"};

const options = (entries, chosen) => h("select", {}, entries.map(([value, words]) => h("option", {value, selected: value === chosen}, words)));
const input = (value, more = {}) => h("input", {value, autocomplete: "off", maxlength: 100, ...more});

function controls(of, query) {
  const named = {
    kind: () => [t("log.kind"), options([["", t("log.every")], ...KINDS.map((it) => [it, t(`kind.${it}`)])], query.get("kind") ?? "")],
    rollout: () => [t("log.rollout"), input(query.get("rollout") ?? "", {pattern: "[1-9][0-9]{0,9}", inputmode: "numeric"})],
    who: () => [t("log.who"), input(query.get("who") ?? "")],
    refused: () => [t("log.result"), options(RESULTS.map(([value, key]) => [value, t(key)]), query.get("refused") ?? "")],
  };
  return FILTERS[of].map((it) => {
    const [words, control] = named[it]();
    control.name = it;
    return field(`log-${it}`, words, control);
  });
}

const whoOf = ({who}) => (who === "-" ? t("log.machine") : who);

const rowOf = {
  happened: (it) => [time(it.at), it.rollout ? link(`#/rollouts/${it.rollout}`, happenedWords(it)) : happenedWords(it), whoOf(it)],
  audit: (it) => [time(it.at), whoOf(it), it.address, h("code", {}, `${it.method} ${it.path}`), it.status],
};

export const view = {
  title: () => t("frame.history"),
  async load(_, query) {
    const of = query.get("of") === "audit" ? "audit" : "happened";
    const asked = new URLSearchParams(["before", ...FILTERS[of]].filter((it) => query.get(it)).map((it) => [it, query.get(it)]));
    return {of, query, asked, rows: await askConsole(`${PATHS[of]}?${new URLSearchParams({...Object.fromEntries(asked), limit: SHOWN})}`)};
  },
  draw({of, query, asked, rows}, page) {
    const address = (more) => `#/history?${new URLSearchParams({of, ...Object.fromEntries(asked), ...more})}`;
    const search = (event) => {
      event.preventDefault();
      page.go(`#/history?${new URLSearchParams({of, ...Object.fromEntries(Object.entries(typed(event.target)).filter(([, it]) => it))})}`);
    };
    const choice = (it) => h("a", {href: `#/history?of=${it}`, "aria-current": it === of ? "page" : "false"}, t(TITLES[it]));
    const without = new URLSearchParams([...asked].filter(([it]) => it !== "before"));
    const newest = `#/history?${new URLSearchParams({of, ...Object.fromEntries(without)})}`;
    const file = urlOf(`${PATHS[of]}?${new URLSearchParams({...Object.fromEntries(without), limit: 10_000, format: "csv"})}`);
    const found = () => (rows.length ? table(t(TITLES[of]), HEADS[of].map((it) => t(it)), rows.map(rowOf[of])) : p("empty", t("log.none")));
    return [
      h("nav", {class: "choices states", "aria-label": t("frame.history")}, choice("happened"), choice("audit")),
      page.kept(`filters ${of}`, () => h("form", {class: "row", onsubmit: search, role: "search"}, controls(of, query), h("button", {}, t("log.show")))),
      rows ? found() : p("empty", t("watch.none")),
      rows ? h("nav", {class: "pager", "aria-label": t("pager.label")}, asked.has("before") ? link(newest, t("log.newest")) : null,
        rows.length === SHOWN ? link(address({before: rows.at(-1).id}), t("log.older")) : null,
        h("a", {href: file, download: `${of}.csv`}, t("log.csv"))) : null,
      lastTold()?.begun ? p("hint", t("happened.from", {begun: when(lastTold().begun)})) : null,
    ];
  },
};
