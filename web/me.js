// Who is logged in, and what this login may do. Where no proxy tells it nothing is left out: whatever isn't allowed is refused all the same.
import {known, t} from "./language.js";
import {urlOf} from "./place.js";

const ALL = 4;
let groups = null;

/** Asks the proxy, and shows who it is, with what he may where that isn't all. */
export async function introduce(place) {
  try {
    const reply = await fetch(urlOf("/fwdesk/me"), {cache: "no-store"});
    const {may: named, operator} = reply.ok ? await reply.json() : {};
    groups = named?.split(",").filter(Boolean) ?? null;
    const words = groups?.map((it) => known("me", it)).join(", ") || t("me.nothing");
    place.textContent = !groups || groups.length === ALL ? operator ?? "" : t("me.may", {operator, groups: words});
  } catch {
    groups = null;
  }
}

/** Whether this login is of a group: look, steer, approve or hold. */
export const may = (group) => !groups || groups.includes(group);

/** A part for those who plan and steer. */
export const ifSteers = (part) => (may("steer") ? part() : null);
