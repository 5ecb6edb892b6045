// A target: its tags, its attributes, its actions.
import {ask, get, page as pageOf} from "./api.js";
import {cancelButton} from "./cancel.js";
import {deviceButtons} from "./device.js";
import {field, h, link, p, pager, table, typed, word} from "./drawing.js";
import {TARGETS} from "./matching.js";
import {ago, nodes, t, when} from "./language.js";
import {ifSteers} from "./me.js";
import {askConsole, isInstalled} from "./live.js";
import {time} from "./happened.js";
import {stateBadge} from "./states.js";

const SHOWN = 50;
const HEADS = ["device.action", "device.rollout", "device.group", "list.stateHead", "device.steering"];

const rolloutLink = (id) => link(`#/rollouts/${id}`, t("rollout.inText", {id: String(id)}));

const CLOSED = ["finished", "error", "canceled"];

/** What the device said last of its newest action; what is over is asked for once. */
async function lastSaid(id, actions, offset, before) {
  const isLast = offset + actions.content.length >= actions.total;
  const newest = isLast ? actions.content.at(-1) : (await pageOf(`${TARGETS}/${id}/actions`, actions.total - 1, 1)).content[0];
  if (!newest) {
    return null;
  }
  const key = `${newest.id} ${newest.status}`;
  if (before?.key === key && CLOSED.includes(newest.status)) {
    return before;
  }
  const {content} = await pageOf(`${TARGETS}/${id}/actions/${newest.id}/status`, 0, 500);
  return {key, action: newest.id, words: content.findLast((it) => it.details.length)?.details.join(" · ")};
}

/** Which version it has and when it polled last, as the console tells it. */
function watched({has, seen}) {
  const since = (at) => (at ? t("device.since", {at: when(at), ago: ago(at)}) : t("device.sinceUnknown"));
  const version = !has ? t("device.unknown") : !has.has ? t("device.hasNone")
    : [`${has.has.set.name} ${has.has.set.version}, `, since(has.has.at), " (", rolloutLink(has.has.rollout), ")"];
  const poll = !seen ? t("device.unknown") : seen.at ? nodes("moment.near", {at: time(seen.at), ago: ago(seen.at)}) : t("device.pollNone");
  return [h("dt", {}, t("device.has")), h("dd", {}, version), h("dt", {}, t("device.poll")), h("dd", {}, poll)];
}

function nowOf(id, told, said) {
  const action = said && link(`#/targets/${id}/actions/${said.action}`, t("action.inText", {id: String(said.action)}));
  const words = said?.words ? [said.words, " (", action, ")"] : t("device.wordsNone");
  return h("section", {class: "card", id: "device-now", "aria-label": t("device.now")}, h("h2", {}, t("device.now")),
    h("dl", {}, told ? watched(told) : null, h("dt", {}, t("device.words")), h("dd", {id: "device-said"}, words)));
}

function tags(target, page) {
  const at = (tag) => `${TARGETS}/${target.controllerId}/tags/${encodeURIComponent(tag)}`;
  const change = (method, tag, words) => page.tried(async () => {
    await ask(method, at(tag));
    page.say("ok", t(words, {tag}));
    page.refresh();
  });
  const put = (event) => {
    event.preventDefault();
    const {tag} = typed(event.target);
    event.target.reset();
    change("POST", tag, "device.tagAdded");
  };
  const take = (it) => ifSteers(() => h("button", {class: "small", "aria-label": t("device.removeTag", {tag: it}),
    onclick: () => change("DELETE", it, "device.tagRemoved")}, "✕"));
  const tag = (it) => h("li", {class: "tag", "data-key": it}, it, take(it));
  return [h("ul", {class: "tags", "aria-label": t("device.tags")}, target.tags.map(tag)),
    ifSteers(() => h("form", {class: "row", onsubmit: put}, field("tag", t("device.newTag"), word("tag", 64)), h("button", {}, t("device.addTag"))))];
}

export const view = {
  title: ({target}) => target.controllerId,
  async load([id], query, before) {
    const offset = Number(query.get("offset") ?? 0);
    const told = isInstalled() ? {has: await askConsole(`/fwdesk/versions?device=${id}`), seen: await askConsole(`/fwdesk/seen?device=${id}`)} : null;
    const target = await get(`${TARGETS}/${id}`), actions = await pageOf(`${TARGETS}/${id}/actions`, offset, SHOWN);
    return {target, offset, told, actions, said: await lastSaid(id, actions, offset, before?.said)};
  },
  draw({target, offset, told, actions, said}, page) {
    const row = (it) => [link(`#/targets/${it.target}/actions/${it.id}`, t("action.inText", {id: String(it.id)})), rolloutLink(it.rollout),
      t("group.inTable", {group: it.group}), stateBadge("action", it.status), cancelButton(it, page)];
    return [
      p("line", stateBadge("target", target.updateStatus), h("span", {class: "facts"}, target.name)),
      nowOf(target.controllerId, told, said),
      deviceButtons(target, page),
      h("section", {class: "card", "aria-label": t("device.tags")}, h("h2", {}, t("device.tags")), tags(target, page)),
      h("section", {class: "card", "aria-label": t("device.attributes")}, h("h2", {}, t("device.attributes")),
        h("dl", {}, Object.entries(target.attributes).map(([key, value]) => [h("dt", {}, key), h("dd", {}, value)])),
        Object.keys(target.attributes).length ? null : p("hint", t("device.toldNone"))),
      h("h2", {}, t("device.actions")),
      actions.total
        ? table(t("device.actions"), HEADS.map((it) => t(it)), actions.content.map(row))
        : p("empty", t("device.none")),
      actions.total > SHOWN ? pager(actions.total, offset, SHOWN, (at) => `#/targets/${target.controllerId}?offset=${at}`) : null,
    ];
  },
};
