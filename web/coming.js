// What is to come by the clock of the proxy's machine: orders for later, quiet hours, and what wasn't done lately.
import {urlOf} from "./place.js";
import {h, p, settle} from "./drawing.js";
import {known, nodes, t, written} from "./language.js";

const FORM = {weekday: "short", day: "numeric", month: "short", hour: "2-digit", minute: "2-digit"};
const when = (moment) => h("time", {datetime: moment}, written(new Date(moment), FORM));
const isRecent = (it) => Date.now() - new Date(it.ended) < 86_400_000;

const entry = (it) => h("li", {class: it.outcome ? "cause" : ""}, when(it.at), ": ", h("code", {}, it.words), ` (${it.who})`,
  it.outcome ? ` ${known("coming", it.outcome)}${it.told ? `: ${it.told}` : ""}` : it.ifMissed === "do" ? t("coming.later") : "");

const stillness = ({hours, zone, isQuiet, until}) =>
  h("li", {}, nodes(isQuiet ? "coming.isQuiet" : "coming.quiet", {time: when(until), hours, zone}));

/** Shows it, each minute anew while the page is seen; without a console there is nothing to show, and while it is away what it told last. */
export function showComing(place) {
  const look = async () => {
    const reply = document.hidden ? null : await fetch(urlOf("/fwdesk/coming"), {cache: "no-store"}).catch(() => null);
    if (reply?.ok || reply?.status === 404) {
      const {orders, ended, quiet} = reply.ok ? await reply.json() : {orders: [], ended: [], quiet: null};
      const lines = [quiet ? stillness(quiet) : [], orders.map(entry), ended.filter((it) => it.outcome !== "done" && isRecent(it)).map(entry)].flat();
      place.hidden = !lines.length;
      settle(place, [h("h2", {}, t("coming.title")), h("ul", {}, lines), p("hint", t("coming.times"))]);
    }
  };
  document.addEventListener("visibilitychange", look);
  setInterval(look, 60_000);
  look();
}
