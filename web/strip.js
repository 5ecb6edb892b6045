// The groups of a rollout as one strip, each as wide as it has devices, and what of them needs somebody.
import {countsOf, isAtErrorThreshold} from "./counts.js";
import {bar, h} from "./drawing.js";
import {t} from "./language.js";

/** So many groups have room for their numbers and states. */
const NAMED = 12;

function cell(rollout, group, isNamed) {
  const state = t(`group.${group.status}`), size = t("n.devices", {n: group.size});
  const label = t("strip.group", {group: group.id, state, size});
  const it = h("li", {"data-key": `${group.id} ${group.size}`, class: isAtErrorThreshold(group) ? "faulty" : ""},
    h("a", {href: `#/rollouts/${rollout.id}/groups/${group.id}`, title: label, "aria-label": label}, bar(countsOf(group), label, isNamed ? group : null),
      isNamed ? h("span", {class: "under"}, `${group.id} · ${state}`) : null));
  // (a policy refuses an attribute `style`, and allows this)
  it.style.flexGrow = group.size;
  return it;
}

/** The strip; a group is never too narrow to be seen. */
export function strip(rollout, groups) {
  const isNamed = groups.length <= NAMED;
  return h("ul", {class: isNamed ? "strip widths" : "strip widths narrow", "aria-label": t("rollouts.of", {name: rollout.name})},
    groups.map((it) => cell(rollout, it, isNamed)));
}
