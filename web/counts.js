// The counts of groups: how many devices are in each part, why a rollout paused, which group starts next.
import {PARTS} from "./drawing.js";
import {t} from "./language.js";

export const isWaiting = (group) => group.status === "scheduled" || group.status === "ready";

/** The next group to start, and the last that was. */
export const next = (groups) => groups.find(isWaiting);
export const last = (groups) => groups.filter((it) => !isWaiting(it)).at(-1);

/** How many of a group's devices are in each part. Open ones are offered the set, waiting ones aren't yet. */
export function countsOf(group) {
  const {size, ok, bad, gone} = group;
  const left = size - ok - bad - gone;
  const waits = isWaiting(group);
  return {size, ok, bad, gone, open: waits ? 0 : left, waiting: waits ? left : 0};
}

export function sum(groups) {
  const total = {size: 0};
  PARTS.forEach((it) => (total[it] = 0));
  groups.map(countsOf).forEach((counts) => Object.keys(total).forEach((it) => (total[it] += counts[it])));
  return total;
}

/** How many of a group have to succeed before the next one starts, and how many failures pause the rollout. */
export const needed = (size, success) => Math.ceil((size * success) / 100);
export const limit = (size, error) => Math.max(1, Math.ceil((size * error) / 100));

export const percent = (part, size) => `${Math.floor((100 * part) / size)} %`;
export const isAtErrorThreshold = (group) => 100 * group.bad >= group.size * group.error;
const failures = ({id, bad, size, error}) => t("cause.failures", {group: id, bad, size, percent: percent(bad, size), error});

/** Why a paused rollout is paused, as far as its groups tell. */
export function cause(groups) {
  const faulty = groups.filter(isAtErrorThreshold);
  return faulty.length ? t("cause.paused", {failures: faulty.map(failures).join(t("cause.and"))}) : t("cause.operator");
}
