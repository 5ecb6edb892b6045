// Whether no device is told of a deployment: what the bar of the brake shows, for the views that it changes.
import {badge} from "./drawing.js";
import {t} from "./language.js";

let held = false;

/** Keeps what holds; answers whether that is news. */
export function noteHeld(told) {
  const before = held;
  held = Boolean(told.brake || told.quiet);
  return before !== held;
}

/** Beside a state under which devices would be told. */
export const heldBadge = (status) => (held && status === "running" ? badge("bad", t("hold.badge")) : null);

/** In a question whose answer would have devices told. */
export const heldWords = () => (held ? [t("hold.question")] : []);
