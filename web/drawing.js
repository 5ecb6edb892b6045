// Draws: elements with text in them (never HTML), bars, badges, tables, forms; and settles a new drawing into the old one.
import {number, t} from "./language.js";
import {longText, TEXT} from "./limits.js";

const SVG = "http://www.w3.org/2000/svg";
/** Control characters, and what turns the direction of a line: in a stranger's words a sign stands in their place. */
const TURNING = /[\u0000-\u0008\u000b\u000c\u000e-\u001f\u007f-\u009f\u061c\u200e\u200f\u202a-\u202e\u2066-\u2069]/gu;

/** A text as it is shown; a node as it is. */
export const plain = (it) => (it instanceof Node ? it : String(it).replace(TURNING, "\ufffd"));

function filled(element, attributes, children) {
  for (const [key, value] of Object.entries(attributes)) {
    if (key.startsWith("on")) {
      element[key] = value;
    } else if (value !== false && value !== null && value !== undefined) {
      element.setAttribute(key, value === true && !key.startsWith("aria-") ? "" : value);
    }
  }
  element.append(...children.flat(Infinity).filter((it) => it !== null && it !== undefined && it !== false).map(plain));
  return element;
}

/** An element of HTML; a child that is no element is text. */
export const h = (tag, attributes = {}, ...children) => filled(document.createElement(tag), attributes, children);

const s = (tag, attributes = {}, ...children) => filled(document.createElementNS(SVG, tag), attributes, children);

const HANDLERS = ["onclick", "oninput", "onchange", "onsubmit"];
// what belongs to the reader once it is drawn
const KEPT = ["open", "value", "checked", "selected"];

function alike(old, fresh) {
  return old?.nodeName === fresh.nodeName && old.id === fresh.id && old.dataset?.key === fresh.dataset?.key;
}

function patch(old, fresh) {
  if (old.nodeType === Node.TEXT_NODE) {
    if (old.data !== fresh.data) {
      old.data = fresh.data;
    }
    return;
  }
  for (const {name} of [...old.attributes]) {
    if (!fresh.hasAttribute(name) && !KEPT.includes(name)) {
      old.removeAttribute(name);
    }
  }
  for (const {name, value} of fresh.attributes) {
    if (old.getAttribute(name) !== value && !KEPT.includes(name)) {
      old.setAttribute(name, value);
    }
  }
  HANDLERS.forEach((it) => (old[it] = fresh[it]));
  settle(old, [...fresh.childNodes]);
}

/** Brings the children of a place to what is drawn now, and leaves alone what is there already: focus, scrolling and what is typed stay. */
export function settle(place, drawn) {
  const fresh = drawn.flat(Infinity).filter((it) => it !== null && it !== undefined && it !== false);
  fresh.forEach((it, at) => {
    const node = it instanceof Node ? it : document.createTextNode(plain(it));
    const old = place.childNodes[at];
    if (node === old) {
      return;
    }
    if (!old) {
      place.append(node);
    } else if (node.parentNode === place) {
      place.insertBefore(node, old);
    } else if (alike(old, node)) {
      patch(old, node);
    } else {
      old.replaceWith(node);
    }
  });
  while (place.childNodes.length > fresh.length) {
    place.lastChild.remove();
  }
}

export const PARTS = ["ok", "open", "waiting", "gone", "bad"];

/** The word of a part, which is that of the state of a device that is in it. */
export const partWord = (part) => t(`part.${part}`);

/** How many there are of each part, in words. */
export const inWords = (counts) => PARTS.filter((it) => counts[it]).map((it) => `${number(counts[it])} ${partWord(it)}`).join(", ") || t("counts.none");

function mark(kind, at) {
  const path = kind === "success" ? "M0 7l-5 -7h10z" : "M0 25l-5 7h10z";
  return s("svg", {x: `${at}%`, y: 0, class: `mark ${kind}`}, s("line", {x1: 0, x2: 0, y1: 5, y2: 27}), s("path", {d: path}));
}

/**
 * A bar: ok grows from the left towards the mark of success, bad from the right towards the mark of error.
 * `thresholds` are percentages, or null where there are none.
 */
export function bar(counts, label, thresholds = null) {
  let at = 0;
  const parts = PARTS.map((it) => {
    const width = counts.size ? (100 * counts[it]) / counts.size : 0;
    at += width;
    return width ? s("rect", {class: it, x: `${at - width}%`, width: `${width}%`, y: 7, height: 18}) : null;
  });
  const marks = thresholds ? [mark("success", thresholds.success), mark("error", 100 - thresholds.error)] : [];
  const said = thresholds ? t("bar.thresholds", {success: thresholds.success, error: thresholds.error}) : "";
  const words = t("bar.label", {label, counts: inWords(counts), size: counts.size});
  return s("svg", {class: "bar", role: "img", "aria-label": `${words}${said}`}, parts, marks);
}

/** What the colours stand for, with how many there are of each. */
export function legend(counts) {
  const entry = (it) => h("li", {}, s("svg", {class: "swatch", "aria-hidden": true}, s("rect", {class: it, width: "100%", height: "100%"})),
    h("strong", {"data-count": it}, number(counts[it])), h("span", {}, partWord(it)));
  return h("ul", {class: "legend", "aria-label": t("legend.label")}, PARTS.map(entry));
}

const SIGNS = {ok: "✓", bad: "✕", gone: "○", open: "▶", waiting: "…", paused: "❚❚"};

/** A state: a sign and a word, in a colour. */
export const badge = (kind, word) =>
  h("span", {class: `badge ${kind}`}, h("span", {"aria-hidden": true, class: "sign"}, SIGNS[kind]), word);

/** A table that scrolls by itself where it is too wide; in a narrow window each row is a card, in which each value has its column's name. */
export function table(label, heads, rows) {
  const row = (it) => h("tr", {role: "row"}, it.map((value, k) => h("td", {role: "cell", "data-head": heads[k]}, value)));
  return h("div", {class: "wide", role: "region", "aria-label": label, tabindex: 0}, h("table", {role: "table"},
    h("thead", {role: "rowgroup"}, h("tr", {role: "row"}, heads.map((it) => h("th", {role: "columnheader", scope: "col"}, it)))),
    h("tbody", {role: "rowgroup"}, rows.map(row))));
}

export const link = (address, ...text) => h("a", {href: address}, ...text);

/** The way to the other pages of a list; `address` tells where a page is. */
export function pager(total, offset, limit, address) {
  if (total <= limit) {
    return h("p", {class: "pager"}, t("n.entries", {n: total}));
  }
  const to = (at, word) => (at < 0 || at >= total || at === offset ? h("span", {}, word) : link(address(at), word));
  return h("nav", {class: "pager", "aria-label": t("pager.label")}, to(Math.max(0, offset - limit), t("pager.before")),
    h("span", {}, t("pager.shown", {from: offset + 1, to: Math.min(total, offset + limit), total})), to(offset + limit, t("pager.after")));
}

/** A paragraph of a kind. */
export const p = (kind, ...text) => h("p", {class: kind}, text);

/** A labelled control with a hint. */
export function field(id, label, control, hint = "") {
  control.id = id;
  if (hint) {
    control.setAttribute("aria-describedby", `${id}-hint`);
  }
  return h("div", {class: "field"}, h("label", {for: id}, label), control, hint ? h("p", {class: "hint", id: `${id}-hint`}, hint) : null);
}

/** A control for a word of the server: so many letters, digits and `. _ -`. */
export const word = (name, longest, more = {}) =>
  h("input", {name, required: true, pattern: `[A-Za-z0-9._\\-]{1,${longest}}`, title: t("word.title", {longest}), autocomplete: "off", ...more});

/** A control for a name, a type or a version: whether it is too long is said while it is typed. */
export const text = (name, more = {}) =>
  h("input", {name, required: true, maxlength: TEXT, autocomplete: "off", oninput: ({target}) => target.setCustomValidity(longText(target.value)), ...more});

/** What was typed into a form. */
export const typed = (form) => Object.fromEntries(new FormData(form));

/** A form whose input is sent, after which it is empty and the page is asked for anew; `send` answers what is said then, or null. */
export function adding(id, command, controls, send, page) {
  const submit = (event) => {
    event.preventDefault();
    const form = event.target;
    return page.tried(async () => {
      const words = await send(form);
      if (words) {
        page.say("ok", words);
        form.reset();
        page.refresh();
      }
    });
  };
  return h("form", {id, class: "row", onsubmit: submit}, controls, h("button", {}, command));
}

const dialog = document.getElementById("dialog");

let questions = 0;

/**
 * Asks once more, in words that say what will happen. Answers what was chosen, or null where it isn't to be done.
 * Where there are choices, each a value and its words, one has to be taken.
 */
export async function sure(title, sentences, yes, choices = []) {
  if (dialog.open) {
    return null;
  }
  questions += 1;
  const radio = (value) => h("input", {type: "radio", name: "way", value, required: true});
  const choice = ([value, words]) => h("label", {class: "choice", "data-key": `${questions} ${value}`}, radio(value), words);
  settle(document.getElementById("dialog-title"), [title]);
  settle(document.getElementById("dialog-words"), sentences.map((it) => h("p", {}, it)));
  const place = document.getElementById("dialog-choices");
  place.hidden = !choices.length;
  settle(place, choices.map(choice));
  settle(document.getElementById("dialog-yes"), [yes]);
  dialog.returnValue = "no";
  dialog.showModal();
  const chosen = () => typed(dialog.querySelector("form")).way ?? "yes";
  return new Promise((done) => dialog.addEventListener("close", () => done(dialog.returnValue === "yes" ? chosen() : null), {once: true}));
}
