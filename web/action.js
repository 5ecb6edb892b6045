// An action: what its device reported.
import {get, page as pageOf} from "./api.js";
import {cancelButton} from "./cancel.js";
import {h, link, p} from "./drawing.js";
import {known, number, t} from "./language.js";
import {stateBadge} from "./states.js";

function entry({id, kind, execution, finished, details, number: given}) {
  return h("li", {}, h("p", {}, h("strong", {}, known("execution", execution)), finished === "none" ? "" : `, ${known("outcome", finished)}`,
    kind === "cancel" ? t("action.ofCancel") : "",
    given === undefined ? null : h("span", {class: "facts", "data-number": given}, t("action.number", {n: given}))),
    details.length ? h("ul", {class: "details", "aria-label": t("action.details", {id: number(id)})}, details.map((it) => h("li", {}, it))) : null);
}

export const view = {
  title: ({action: it}) => t("action.title", {id: String(it.id), target: it.target}),
  async load([target, id]) {
    const at = `/rest/v1/targets/${target}/actions/${id}`;
    return {action: await get(at), history: await pageOf(`${at}/status`, 0, 500)};
  },
  draw({action: it, history}, page) {
    return [
      p("line", link(`#/targets/${it.target}`, `← ${it.target}`), stateBadge("action", it.status),
        link(`#/rollouts/${it.rollout}/groups/${it.group}`, t("action.group", {group: String(it.group), rollout: String(it.rollout)}))),
      p("buttons", cancelButton(it, page)),
      h("h2", {}, t("action.reported")),
      history.total ? h("ol", {class: "history"}, history.content.map(entry)) : p("empty", t("action.nothing")),
    ];
  },
};
