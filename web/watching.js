// Whether the console watches: what the page can't know while it is away, and what the console itself says of the server and its disk.
import {p, settle} from "./drawing.js";
import {t, when, written} from "./language.js";
import {awayFrom, lastTold, told} from "./live.js";

/** Shows it in a place, for as long as the page is open; nothing where there is no console, or nothing to say. */
export function showWatch(place) {
  const line = (key, words) => Object.assign(p("notice paused", words), {id: `watching-${key}`});
  const draw = () => {
    const since = awayFrom(), said = since ? null : lastTold();
    settle(place, [
      since ? line("away", t("watch.away", {since: written(since, {hour: "2-digit", minute: "2-digit"})})) : null,
      said?.away ? line("server", t("watch.server", {since: when(said.awaySince), words: said.away})) : null,
      said?.kept ? line("kept", t("watch.notKept", {words: said.kept})) : null,
    ]);
  };
  told.addEventListener("look", draw);
  draw();
}
