// The brake: who holds the fleet, since when and why, on every view, and the buttons that hold and release it.
import {ask, get, gently} from "./api.js";
import {h, settle, sure} from "./drawing.js";
import {noteHeld} from "./held.js";
import {t, written} from "./language.js";
import {may} from "./me.js";

const PATH = "/fwdesk/brake";
const KINDS = ["brake", "quiet"];

const told = (kind, {who, since, reason: why}) =>
  t(why ? "hold.toldWhy" : "hold.told", {kind: t(`hold.${kind}`), who, since: written(new Date(since)), why});

/** Shows in a place what is held, or the button that holds, for as long as the page is open; nothing where the proxy has no brake. */
export function showBrake(place, page) {
  const order = async (method, query) => draw(await ask(method, `${PATH}?${new URLSearchParams(query)}`));

  async function hold() {
    const reason = h("input", {"id": "reason", "data-key": Date.now(), maxlength: 200, autocomplete: "off"});
    if (await sure(t("hold.title"), [t("hold.from"), t("hold.goesOn"), h("label", {for: "reason"}, t("hold.why")), reason], t("hold.yes"))) {
      await order("POST", {kind: "brake", reason: reason.value});
    }
  }

  async function release(kind, it) {
    if (await sure(t("hold.release"), [told(kind, it), t("hold.releases")], t("hold.release"))) {
      await order("DELETE", {kind});
    }
  }

  function draw(held) {
    if (noteHeld(held)) {
      page.redraw();
    }
    const bar = (kind) => held[kind] && h("p", {class: "notice bad", "data-key": kind}, `${told(kind, held[kind])}${t("hold.none")}`,
      may("hold") ? h("button", {class: "small", onclick: () => page.tried(() => release(kind, held[kind]))}, t("hold.release")) : null);
    const button = held.brake || !may("hold") ? null : h("button", {id: "hold", class: "small", onclick: () => page.tried(hold)}, t("hold.title"));
    settle(place, [...KINDS.map(bar), button]);
  }

  const loop = gently(async () => {
    try {
      draw(await get(PATH));
    } catch (refusal) {
      if (refusal.status === 404) {
        loop.end();
      }
      throw refusal;
    }
  }, true);
}
