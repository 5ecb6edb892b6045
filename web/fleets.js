// Many fleets of one machine: the page of one of them leads to the operator's other ones.
import {link} from "./drawing.js";

const at = (fleet) => `/fleets/${fleet}/page/`;

/** Shows the operator's fleets, where the address says that this is the page of one of them. */
export async function showFleets(place) {
  if (!location.pathname.startsWith("/fleets/")) {
    return;
  }
  const reply = await fetch(`${location.origin}/fleets`, {cache: "no-store"});
  const {fleets} = reply.ok ? await reply.json() : {fleets: []};
  const entry = (it) => Object.assign(link(at(it), it), {ariaCurrent: at(it) === location.pathname ? "page" : "false"});
  place.append(...fleets.map(entry));
  place.hidden = false;
}
