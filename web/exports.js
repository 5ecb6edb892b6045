// Files of a rollout, in the UI's own words: its groups with their counts, and its devices with their states.
import {countsOf, limit, needed} from "./counts.js";
import {h, PARTS, partWord} from "./drawing.js";
import {t} from "./language.js";
import {actionsOf} from "./records.js";

const HEADS = ["device.group", "list.stateHead", "now.devices"];

/** Saves rows as a file of comma-separated values; none of them has a comma or a quote in it. */
function save(name, rows) {
  const text = rows.map((it) => `${it.join(",")}\n`).join("");
  const address = URL.createObjectURL(new Blob([text], {type: "text/csv"}));
  h("a", {href: address, download: name}).click();
  setTimeout(() => URL.revokeObjectURL(address), 60_000);
}

function saveGroups(rollout, groups) {
  const row = (it) => {
    const counts = countsOf(it);
    return [it.id, t(`group.${it.status}`), it.size, ...PARTS.map((part) => counts[part]), needed(it.size, it.success), limit(it.size, it.error)];
  };
  const heads = [...HEADS.map((it) => t(it)), ...PARTS.map(partWord), t("exports.needed"), t("exports.limit")];
  save(`rollout-${rollout.id}-groups.csv`, [heads, ...groups.map(row)]);
}

async function saveDevices(rollout) {
  const heads = [t("list.device"), t("device.action"), t("device.group"), t("list.stateHead")];
  const rows = (await actionsOf(rollout.id)).map((it) => [it.target, it.id, it.group, t(`action.${it.status}`)]);
  save(`rollout-${rollout.id}-devices.csv`, [heads, ...rows]);
}

/** The buttons that save them. */
export const exportButtons = (rollout, groups, page) => [
  h("button", {id: "save-groups", onclick: () => saveGroups(rollout, groups)}, t("exports.groups")),
  h("button", {id: "save-devices", onclick: () => page.tried(() => saveDevices(rollout))}, t("exports.devices")),
];
