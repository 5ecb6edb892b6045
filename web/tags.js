// Tags on many devices: put on, or taken off.
import {beside} from "./api.js";
import {field, h, link, sure, typed, word} from "./drawing.js";
import {t} from "./language.js";
import {job} from "./work.js";

/** The way to a new rollout for what a filter finds, like another one if there is one. */
const planFor = (tag, like) => `#/rollouts/new?${new URLSearchParams({q: `tag==${tag}`, ...(like && {like})})}`;

/**
 * A form that puts a tag on each of some devices, or takes it off. `find` answers their ids once it is pressed; `like` is the
 * rollout that a new one may be planned like.
 */
export function tagForm(id, find, page, like = null) {
  const press = (event) => {
    event.preventDefault();
    const {tag} = typed(event.target);
    const puts = event.submitter?.value !== "take";
    const method = puts ? "POST" : "DELETE";
    return page.tried(async () => {
      const ids = await find();
      const values = {tag, devices: t("n.devices", {n: ids.length})};
      if (!ids.length || !await sure(t("tag.question", values), [t(puts ? "tag.puts" : "tag.takes", values)], t(puts ? "tag.put" : "tag.take", values))) {
        return;
      }
      const plan = (done) => (puts && done ? [link(planFor(tag, like), t(like ? "tag.planLike" : "tag.plan"))] : []);
      const send = (it) => beside(method, `/rest/v1/targets/${it}/tags/${encodeURIComponent(tag)}`);
      await job(t(puts ? "tag.putJob" : "tag.takeJob", {tag}), ids, (it) => it, send, plan);
      page.refresh();
    });
  };
  return h("form", {id, class: "row", onsubmit: press}, field(`${id}-tag`, t("tag.label"), word("tag", 64)),
    h("button", {value: "put"}, t("tag.all")), h("button", {value: "take"}, t("tag.off")));
}
