// Finds the place where a text stops being a filter. The server decides what a filter is; this only shows where a refused one goes wrong.

import {t} from "./language.js";

const WORD = "[A-Za-z0-9._-]{1,64}";
const FIELDS = ["controllerid", "name", "tag", "attribute."];
const STEPS = [
  [new RegExp(`attribute\\.${WORD}|controllerid|name|tag`, "y"), "filter.field"],
  [/[=!]=/y, "filter.operator"],
  [/[A-Za-z0-9._*-]+|"[^"\u0000-\u001f\u007f]*"/y, "filter.value"],
];

/** How much of what stands at a place is the beginning of a field, `==` or a value. */
function begun(step, rest) {
  if (step === 0) {
    const lengths = FIELDS.map((it) => [...it].findIndex((letter, at) => rest[at] !== letter)).map((it, k) => (it < 0 ? FIELDS[k].length : it));
    return Math.max(...lengths);
  }
  return step === 1 ? /^[=!]?/.exec(rest)[0].length : /^("[^"\u0000-\u001f\u007f]*)?/.exec(rest)[0].length;
}

/** Where the longest beginning ends that could still become a filter, and what is wanted there; null where the text is one. */
export function faultOf(text) {
  if (new TextEncoder().encode(text).length > 512) {
    return {at: text.length, wanted: t("filter.long")};
  }
  let at = 0, open = 0, deepest = 0;
  for (;;) {
    for (; text[at] === "("; at += 1) {
      open += 1;
      deepest = Math.max(deepest, open);
    }
    for (const [step, [pattern, wanted]] of STEPS.entries()) {
      pattern.lastIndex = at;
      const found = pattern.exec(text);
      if (!found) {
        return {at: at + begun(step, text.slice(at)), wanted: t(wanted)};
      }
      at += found[0].length;
    }
    for (; text[at] === ")" && open; at += 1) {
      open -= 1;
    }
    if (at === text.length && !open) {
      return deepest > 16 ? {at, wanted: t("filter.deep")} : null;
    }
    if (!";,".includes(text[at] ?? " ")) {
      return {at, wanted: t(open ? "filter.open" : "filter.end")};
    }
    at += 1;
  }
}
