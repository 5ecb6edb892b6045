// How the members of a rollout are cut into groups, as the server does it.

/** Even groups. */
export function evenly(total, count) {
  const end = (k) => Math.floor((k * total) / count);
  return Array.from({length: count}, (_, k) => end(k + 1) - end(k));
}

const share = (left, percentage) => Math.ceil((left * percentage) / 100);

/** Groups by percentages, each of what the ones before it leave, rounded up. */
export function byPercentages(total, percentages) {
  let left = total;
  return percentages.map((it) => {
    const size = share(left, it);
    left -= size;
    return size;
  });
}

/** Percentages that cut groups of these sizes, the roundest ones, since a rollout doesn't tell those that it was planned with. */
export function percentagesOf(sizes) {
  let left = sizes.reduce((sum, it) => sum + it, 0);
  return sizes.map((size, k) => {
    const those = Array.from({length: 100}, (_, it) => it + 1).filter((it) => share(left, it) === size);
    const nearest = Math.min(100, Math.max(1, Math.round((100 * size) / left)));
    left -= size;
    return k === sizes.length - 1 ? 100 : [10, 5, 1].map((step) => those.find((it) => it % step === 0)).find(Boolean) ?? nearest;
  });
}
