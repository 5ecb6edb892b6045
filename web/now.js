// The first view: what needs somebody, what runs, which devices have what; each number leads on.
import {bar, h, inWords, link, p} from "./drawing.js";
import {askedLine, happenedWords, pausedLine, standsLine, time, whenOf} from "./happened.js";
import {heldBadge} from "./held.js";
import {number, t, when} from "./language.js";
import {awayFrom, lastTold, looked, state} from "./live.js";
import {stateBadge} from "./states.js";
import {firstSteps} from "./steps.js";

/** The counts of a rollout in the parts of a bar. */
const partsOf = ({size, ok, bad, gone, waiting}) => ({size, ok, bad, gone, waiting, open: size - ok - bad - gone - waiting});
const progress = ({id, name, counts}) => [bar(partsOf(counts), name), p("under", link(`#/rollouts/${id}`, inWords(partsOf(counts))))];

function line(rollout, ...more) {
  const failed = rollout.status === "paused" && rollout.counts.bad;
  return h("li", {"data-key": rollout.id, class: "need"},
    h("div", {class: "line"}, h("strong", {}, link(`#/rollouts/${rollout.id}`, rollout.name)), stateBadge("rollout", rollout.status),
      heldBadge(rollout.status), whenOf(rollout)),
    more, failed ? p("buttons", h("a", {class: "button", href: failedOf(rollout)}, t("failed.see", {n: rollout.pausedBad ?? failed}))) : null);
}

const failedOf = ({id, acts}) => (acts.paused?.group ? `#/rollouts/${id}/groups/${acts.paused.group}?state=error` : `#/rollouts/${id}`);


const heldWords = ({who, since, reason: why}) => t(why ? "now.heldWhy" : "now.held", {who, since: when(new Date(since) / 1000), why});

function needs({rollouts, held}) {
  const since = (it) => h("li", {"data-key": "held"}, p("cause", heldWords(it)));
  return [
    held?.brake ? since(held.brake) : null,
    rollouts.filter((it) => it.status === "paused").map((it) => line(it, pausedLine(it))),
    rollouts.filter((it) => it.stands).map((it) => line(it, standsLine(it))),
    rollouts.filter((it) => it.status === "waiting_for_approval").map((it) => line(it, p("under", askedLine(it) ?? t("now.waits")))),
  ].flat().filter(Boolean);
}

const rows = (entries) => h("ul", {class: "numbers"}, entries.filter(Boolean).map(([words, count, address]) =>
  h("li", {}, h("span", {}, words), address ? link(address, number(count)) : h("strong", {}, number(count)))));

function versionsOf({versions, fleet}) {
  const known = versions.reduce((all, it) => all + it.devices, 0);
  return rows([...versions.map(({set, devices}) => [`${set.name} ${set.version}`, devices, `#/devices?set=${set.id}`]),
    fleet && fleet.devices > known ? [t("now.unknown"), fleet.devices - known, "#/devices?lacks=version"] : null]);
}

function statesOf(fleet) {
  const hours = Math.round(fleet.silentAfter / 3600);
  return rows([...Object.entries(fleet.states).map(([it, count]) => [t(`target.${it}`), count, `#/devices?state=${it}`]),
    fleet.silent === null ? null : [t("now.silent", {hours}), fleet.silent, `#/devices?silent=${hours}`],
    fleet.neverSeen ? [t("now.never"), fleet.neverSeen, "#/devices?lacks=poll"] : null]);
}

export const view = {
  title: () => t("frame.now"),
  isTold: true,
  load: async () => ({told: state()?.rollouts ? state() : lastTold()?.rollouts ? lastTold() : null}),
  draw({told}) {
    if (!told) {
      return p("empty", t(awayFrom() ? "watch.none" : "list.loading"));
    }
    const open = needs(told), runs = told.rollouts.filter((it) => it.status === "running");
    const later = told.rollouts.filter((it) => it.status === "ready");
    const isEmpty = told.fleet && !told.fleet.devices && !told.rollouts.length && !told.versions.length;
    return [
      state() ? null : p("cause", t("now.before", {at: when(looked() / 1000)})),
      isEmpty ? firstSteps() : null,
      h("section", {class: open.length ? "card urgent" : "card", id: "needs"}, h("h2", {}, t("now.needs")),
        open.length ? h("ul", {class: "needs"}, open) : p("empty", t("now.needsNone")),
        told.more ? p("hint", link("#/rollouts", t("now.more", {count: told.more}))) : null),
      h("section", {class: "card", id: "runs"}, h("h2", {}, t("now.runs")),
        runs.length ? h("ul", {class: "needs"}, runs.map((it) => line(it, progress(it)))) : p("empty", t("now.runsNone")),
        later.length ? [h("h3", {}, t("now.later")), h("ul", {class: "needs"}, later.map((it) => line(it)))] : null),
      h("section", {class: "card", id: "devices"}, h("h2", {}, t("now.devices"), told.fleet ? [" ", link("#/targets", number(told.fleet.devices))] : null),
        h("h3", {}, t("now.versions")), versionsOf(told), p("hint", t("now.versionsHint")),
        told.fleet ? [h("h3", {}, t("now.states")), statesOf(told.fleet)] : null,
        told.fleet?.pollsAway ? p("hint", t("now.polls", {words: told.fleet.pollsAway})) : null),
      told.events.length ? h("section", {class: "card", id: "lately"}, h("h2", {}, t("now.lately")),
        h("ul", {class: "history"}, told.events.slice(0, 8).map((it) => h("li", {"data-key": it.id}, time(it.at), ": ",
          it.rollout ? link(`#/rollouts/${it.rollout}`, happenedWords(it)) : happenedWords(it)))), p("under", link("#/history", t("now.all")))) : null,
    ];
  },
};
