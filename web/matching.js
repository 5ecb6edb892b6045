// A control for a filter, which says how many targets match as it is typed.
import {page as pageOf} from "./api.js";
import {field, h, settle} from "./drawing.js";
import {faultOf} from "./filter.js";
import {nodes, number, t} from "./language.js";

const PATIENCE = 400;

export const TARGETS = "/rest/v1/targets";
export const matching = (filter) => (filter ? `${TARGETS}?q=${encodeURIComponent(filter)}` : TARGETS);

/** Shows where a refused filter goes wrong. */
function place(text, refusal) {
  const fault = refusal.number === 11 ? faultOf(text) : null;
  if (!fault) {
    return [refusal.sentence];
  }
  const at = h("strong", {"data-at": fault.at}, t("filter.characters", {n: fault.at}));
  return [refusal.sentence, ...nodes("filter.after", {place: at, wanted: fault.wanted}),
    h("code", {class: "fault"}, text.slice(0, fault.at), h("mark", {}, text.slice(fault.at) || "␣"))];
}

/** A word or two without a comparison are looked for in ids and names. */
export function searched(text) {
  const words = text.trim();
  if (!words || /[=!]=/.test(words) || /["\u0000-\u001f\u007f]/.test(words)) {
    return text;
  }
  return /^[A-Za-z0-9._*-]+$/.test(words) ? `controllerid==*${words}*,name==*${words}*` : `name=="*${words}*"`;
}

/** The control; where a filter goes wrong is shown below it. */
export function filterField(id, filter, counted = () => {}, meant = (text) => text) {
  let timer, asked = 0;
  const isSearch = meant === searched;
  const told = h("p", {class: "told", id: `${id}-told`, "aria-live": "polite"});
  const input = h("input", {name: "filter", value: filter, maxlength: 512, autocomplete: "off", spellcheck: "false", class: "code", placeholder: "name==*"});

  async function count() {
    const text = meant(input.value);
    asked += 1;
    const mine = asked;
    let total = null, words;
    try {
      ({total} = await pageOf(matching(text), 0, 1));
      words = nodes("filter.matches", {n: total, count: h("strong", {"data-matching": total}, number(total))});
    } catch (refusal) {
      words = place(text, refusal);
    }
    if (mine === asked) {
      input.setAttribute("aria-invalid", total === null);
      told.classList.toggle("bad", total === null);
      settle(told, words);
      counted(total);
    }
  }

  input.oninput = () => {
    clearTimeout(timer);
    timer = setTimeout(count, PATIENCE);
  };
  if (filter) {
    count();
  }
  const whole = field(id, t(isSearch ? "fleet.search" : "filter.label"), input, isSearch ? t("fleet.hint", {filter: t("filter.hint")}) : t("filter.hint"));
  input.setAttribute("aria-describedby", `${id}-told ${id}-hint`);
  input.after(told);
  return whole;
}
