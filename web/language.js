// The language of the UI: the one that was chosen, else the first of the browser's that there is, else English.
import {DE} from "./de.js";
import {EN} from "./en.js";
import {HAPPENED} from "./happenings.js";

const LANGUAGES = {en: "English", de: "Deutsch"};
const MESSAGES = {en: {...EN, ...HAPPENED.en}, de: {...DE, ...HAPPENED.de}};
const KEPT = "fwdesk-language";

const isKnown = (it) => Object.hasOwn(LANGUAGES, it ?? "");
const language = [localStorage.getItem(KEPT), ...navigator.languages.map((it) => it.slice(0, 2))].find(isKnown) ?? "en";
const messages = MESSAGES[language];

const MINUTE = 60, HOUR = 3600, DAY = 86_400;

/** What a table of languages has for the one that is shown. */
export const inLanguage = (table) => table[language];

/** A number with thin spaces between its thousands. */
export const number = (it) => String(it).replace(/\B(?=(\d{3})+$)/g, "\u202f");

/** A message split at its placeholders; of two forms the first is that of one, by the value `n`. */
function split(key, values) {
  const forms = messages[key].split("|");
  return (forms.length > 1 && values.n !== 1 ? forms[1] : forms[0]).split(/\{(\w+)\}/);
}

/** A message as nodes: each of its placeholders is a node, a text or a list of these. */
export const nodes = (key, values) => split(key, values).map((it, k) => (k % 2 ? typeof values[it] === "number" ? number(values[it]) : values[it] : it));

/** A message as a text. */
export const t = (key, values = {}) => nodes(key, values).join("");

/** Whether there is a message of this key. */
export const has = (key) => Object.hasOwn(messages, key);

/** A message, or the key's last part where there is none: for what others name. */
export const known = (prefix, it) => (has(`${prefix}.${it}`) ? t(`${prefix}.${it}`) : it.replaceAll("_", " "));

/** Things joined by commas, with a word before the last. */
export const listed = (things) => new Intl.ListFormat(language, {type: "conjunction"}).format(things);

/** A date in the UI's language, at the reader's clock. */
export const written = (date, form) => date.toLocaleString(language === "en" ? [] : language, form);

/** A moment in seconds, as the reader's clock has it: its day too where that isn't today. */
export function when(seconds) {
  const it = new Date(seconds * 1000), isToday = it.toDateString() === new Date().toDateString();
  const clock = {hour: "2-digit", minute: "2-digit"};
  const day = it.getFullYear() === new Date().getFullYear() ? {day: "numeric", month: "short"} : {day: "numeric", month: "short", year: "numeric"};
  return written(it, isToday ? clock : {...clock, ...day});
}

/** How long ago, in the largest unit that fits. */
export function ago(seconds) {
  const past = Math.max(0, Date.now() / 1000 - seconds);
  const [unit, name] = past < HOUR ? [MINUTE, "minutes"] : past < 2 * DAY ? [HOUR, "hours"] : [DAY, "days"];
  return past < MINUTE ? t("ago.now") : t(`ago.${name}`, {n: Math.floor(past / unit)});
}

/** The switch of the language, in a place. */
export function showLanguages(place) {
  document.documentElement.lang = language;
  const choose = ({target}) => {
    localStorage.setItem(KEPT, target.value);
    location.reload();
  };
  const option = ([it, name]) => Object.assign(document.createElement("option"), {value: it, textContent: name, lang: it, selected: it === language});
  place.append(...Object.entries(LANGUAGES).map(option));
  place.setAttribute("aria-label", t("frame.language"));
  place.onchange = choose;
}

/** Puts the words of the frame into the page as it was delivered. */
export function translateFrame() {
  document.querySelectorAll("[data-word]").forEach((it) => (it.textContent = t(it.dataset.word)));
  document.querySelectorAll("[data-label]").forEach((it) => it.setAttribute("aria-label", t(it.dataset.label)));
}
