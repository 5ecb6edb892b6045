// What is done to many, one after the other: how far it is, a way to stop it, and what was refused of it.
import {Refusal} from "./api.js";
import {h, p, settle} from "./drawing.js";
import {nodes, t} from "./language.js";

const AT_ONCE = 4;
const NAMED = 3;
let underway = 0;

/** Does it to each, a few at a time, for as long as `goes` says. */
export async function each(things, one, goes) {
  let at = 0;
  const lane = async () => {
    while (at < things.length && goes()) {
      at += 1;
      await one(things[at - 1]);
    }
  };
  await Promise.all(Array.from({length: AT_ONCE}, lane));
}

const leaving = (event) => event.preventDefault();

/** A window that is closed meanwhile asks first. */
function busy(more) {
  underway += more;
  (underway ? addEventListener : removeEventListener)("beforeunload", leaving);
}

function named(names) {
  const rest = names.length - NAMED;
  const first = names.slice(0, NAMED).join(", ");
  return rest > 0 ? t("work.more", {names: first, rest}) : first;
}

/** The line of a job, which stays in view wherever the page goes: its numbers, and what is said at its end. */
function board(title, total, stop) {
  const bar = h("progress", {max: total, value: 0, "aria-label": title});
  const count = h("span", {"data-done": 0});
  const box = h("section", {class: "notice job", "aria-label": title}, h("p", {}, h("strong", {}, title), " ", count), bar,
    h("button", {onclick: stop}, t("work.stop")));
  document.getElementById("work").append(box);
  return {
    shows(done) {
      bar.value = done;
      count.textContent = t("counts.of", {part: done, size: total});
      count.dataset.done = done;
    },
    ends(good, sentences) {
      box.classList.toggle("bad", !good);
      settle(box, [h("div", {role: "status"}, sentences.map((it) => p("", it))),
        h("button", {class: "small", "aria-label": t("work.putAway", {title}), onclick: () => box.remove()}, "✕")]);
    },
  };
}

/**
 * Does `send` to each of the things and shows it; answers whether all were tried.
 * A refusal is told with those that it met. Where the server doesn't answer or its database failed the rest is left.
 */
export async function job(title, things, nameOf, send, after = () => []) {
  const refused = new Map();
  let done = 0, tried = 0, stopped = null;
  const shown = board(title, things.length, () => (stopped ??= t("work.stopped")));
  const one = async (it) => {
    try {
      await send(it);
      done += 1;
    } catch (refusal) {
      if (!(refusal instanceof Refusal) || !refusal.number || refusal.isStore) {
        stopped ??= `${t("work.stopped")} ${refusal.sentence ?? refusal}`;
        return;
      }
      refused.set(refusal.sentence, [...(refused.get(refusal.sentence) ?? []), nameOf(it)]);
    }
    tried += 1;
    shown.shows(tried);
  };
  shown.shows(0);
  busy(1);
  await each(things, one, () => !stopped);
  busy(-1);
  const whole = tried === things.length;
  const told = [...refused].map(([sentence, names]) => `${named(names)}: ${sentence}`);
  shown.ends(whole && !refused.size, [h("span", {}, nodes("work.done", {title: h("strong", {}, title), done, all: things.length}), whole ? "" : ` ${stopped}`),
    ...told, ...after(done)]);
  return whole;
}
