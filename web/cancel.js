// Cancels: of one action, and of what is open of a group, a rollout or a list. First the device is asked, then it can be forced.
import {ask, beside, get} from "./api.js";
import {h, sure} from "./drawing.js";
import {t} from "./language.js";
import {ifSteers, may} from "./me.js";
import {actionsOf, ROLLOUTS, titleOf} from "./records.js";
import {job} from "./work.js";

const at = ({target, id}) => `/rest/v1/targets/${target}/actions/${id}`;
const isRunning = (it) => it.status === "running";
const isOpen = (it) => isRunning(it) || it.status === "canceling";

/** Asks the device where it wasn't yet, and ends the action where it is forced. */
async function cancel(action, forced) {
  if (isRunning(action)) {
    await beside("DELETE", at(action));
  }
  if (forced) {
    await beside("DELETE", `${at(action)}?force=true`);
  }
}

/** The ways to cancel these actions, as choices of a question. */
export function waysToCancel(actions, then) {
  const running = actions.filter(isRunning).length;
  return [
    ...(running ? [["ask", t("cancel.ask", {n: running, then})]] : []),
    ...(actions.length ? [["force", t("cancel.force", {n: actions.length, then})]] : []),
  ];
}

/** Cancels these, as it was chosen; answers whether all were tried. */
export function cancelEach(actions, way) {
  const forced = way === "force";
  const those = forced ? actions : actions.filter(isRunning);
  const title = t(forced ? "cancel.wordForce" : "cancel.word");
  return job(title, those, (it) => it.target, (it) => cancel(it, forced));
}

/** The button that cancels what is open of a rollout or of one of its groups. */
export function cancelOpenButton({rollout, set, group = null}, page) {
  const of = group ? t("group.inText", {group: group.id, name: rollout.name}) : rollout.name;
  const press = () => page.tried(async () => {
    const open = (await actionsOf(rollout.id)).filter((it) => isOpen(it) && (!group || it.group === group.id));
    const asked = open.filter((it) => !isRunning(it)).length;
    const {status} = await get(`${ROLLOUTS}/${rollout.id}`);
    const goesOn = status === "running" ? [t("cancel.goesOn")] : [];
    const already = asked ? t("cancel.already", {count: asked}) : "";
    const sentences = [t("cancel.openCount", {n: open.length, of, set: titleOf(set), asked: already}), t("cancel.counts"), ...goesOn];
    const way = open.length ? await sure(t("cancel.openTitle", {of}), sentences, t("cancel.openYes"), waysToCancel(open, "")) : null;
    if (!open.length) {
      page.say("ok", t("cancel.none", {of}));
    }
    if (way) {
      await cancelEach(open, way);
    }
    page.refresh();
  });
  return ifSteers(() => h("button", {"data-key": "cancel-open", id: "cancel-open", onclick: press}, t("cancel.open")));
}

/** The button that cancels an action, where its state and the login allow that. */
export function cancelButton(action, page) {
  const {id, target, rollout} = action;
  if (!isOpen(action) || !may("steer")) {
    return null;
  }
  const forced = !isRunning(action);
  const word = t(forced ? "cancel.wordForce" : "cancel.word"), values = {word, id: String(id), target, rollout: String(rollout)};
  const says = forced ? [t("cancel.forceEnds", values), t("cancel.forceLost")] : [t("cancel.asks", values), t("cancel.asksLost")];
  const press = () => page.tried(async () => {
    if (await sure(t("cancel.question", values), says, word)) {
      await ask("DELETE", `${at(action)}${forced ? "?force=true" : ""}`);
      page.say("ok", t("cancel.done", {...values, word: word.toLowerCase()}));
      page.refresh();
    }
  });
  return h("button", {"data-key": `${forced ? "force" : "cancel"} ${id}`, onclick: press, "aria-label": t("cancel.button", values)}, word);
}
