// Lists in an order that the reader chooses: by one of their columns, up or down.
import {h} from "./drawing.js";
import {t} from "./language.js";

const collator = new Intl.Collator([], {numeric: true});

/** The rows in the order that a query asks for (`sort=name`, `sort=-name`); `keys` has for each column what a row is compared by. */
export function sorted(rows, sort, keys) {
  const key = keys[sort?.replace("-", "")];
  if (!key) {
    return rows;
  }
  const found = [...rows].sort((one, other) => collator.compare(key(one), key(other)));
  return sort.startsWith("-") ? found.reverse() : found;
}

/** The ways to other orders: a second press turns one round. `columns` are the keys of their words by name. */
export function sortChips(columns, sort, address) {
  const chip = ([name, words]) => {
    const isUp = sort === name, isDown = sort === `-${name}`;
    return h("a", {href: address(isUp ? `-${name}` : name), "aria-current": isUp || isDown ? "true" : "false", "data-sort": name},
      t(words), isUp ? " ↑" : isDown ? " ↓" : "");
  };
  return h("nav", {class: "choices states", "aria-label": t("list.sort")}, h("span", {class: "under"}, t("list.sort")), Object.entries(columns).map(chip));
}
