// What is done with one device: a new token, out of the fleet and back, as `fwdesk-ctl token` and `retire` do it.
import {all, ask} from "./api.js";
import {h, p, settle, sure} from "./drawing.js";
import {nodes, t} from "./language.js";
import {TARGETS} from "./matching.js";
import {ifSteers} from "./me.js";

const RETIRED = "retired";
const MOST_TAGS = 16;

/** A token that nobody can guess: so many random bytes in base64 without the letters that addresses have a use for. */
function newToken(bytes) {
  const random = String.fromCharCode(...crypto.getRandomValues(new Uint8Array(bytes)));
  return btoa(random).replaceAll("+", "-").replaceAll("/", "_").replaceAll("=", "");
}

/** Puts a device again with this token and these tags; its name, its attributes and its history stay. */
async function put({controllerId, name}, token, tags) {
  await ask("POST", TARGETS, [{controllerId, name, securityToken: token, tags}]);
  const found = await ask("GET", `${TARGETS}/${controllerId}`);
  if (found.name !== name || [...found.tags].sort().join(" ") !== [...tags].sort().join(" ")) {
    throw new Error(t("unit.changed", {id: controllerId}));
  }
}

async function giveToken({controllerId: id}, told, page) {
  if (!await sure(t("unit.tokenTitle", {id}), [t("unit.tokenSays"), t("unit.tokenOnce")], t("unit.tokenYes"))) {
    return;
  }
  // what it is now, and not what was shown
  const target = await ask("GET", `${TARGETS}/${id}`), token = newToken(24);
  // on the page before it is sent: where no answer comes it may hold all the same
  settle(told, [p("notice", h("span", {}, nodes("unit.token", {id, token: h("code", {id: "token"}, token)})))]);
  await put(target, token, target.tags);
  page.say("ok", t("unit.tokenDone", {id}));
  page.refresh();
}

const isOpen = ({status}) => status === "running" || status === "canceling";

/** Ends what has started without the device; answers what can't be canceled yet. */
async function cancelOpen(id) {
  for (const it of (await all(`${TARGETS}/${id}/actions`)).filter(isOpen)) {
    for (const query of it.status === "running" ? ["", "?force=true"] : ["?force=true"]) {
      // one that ended meanwhile is ended
      await ask("DELETE", `${TARGETS}/${id}/actions/${it.id}${query}`).catch((refusal) => {
        if (refusal.number !== 7 && refusal.number !== 8) {
          throw refusal;
        }
      });
    }
  }
  return (await all(`${TARGETS}/${id}/actions`)).filter((it) => isOpen(it) || it.status === "scheduled");
}

async function retire({controllerId: id}, page) {
  if (!await sure(t("unit.retireTitle", {id}), [t("unit.retireSays"), t("unit.retireTag")], t("unit.retire"))) {
    return;
  }
  const target = await ask("GET", `${TARGETS}/${id}`), tags = [...new Set([...target.tags, RETIRED])].sort();
  if (tags.length > MOST_TAGS) {
    throw new Error(t("unit.tags", {id, most: MOST_TAGS}));
  }
  // the token first: nobody reports on its actions meanwhile
  await put(target, newToken(32), tags);
  const left = await cancelOpen(id);
  page.say(left.length ? "bad" : "ok", t(left.length ? "unit.retiredBut" : "unit.retired", {id, n: left.length}));
  page.refresh();
}

async function bringBack(target, told, page) {
  await ask("DELETE", `${TARGETS}/${target.controllerId}/tags/${RETIRED}`);
  await giveToken(target, told, page);
}

/** The buttons of a device, and the place where a new token is shown, once. */
export function deviceButtons(target, page) {
  const told = page.kept("token", () => h("div", {id: "token-told", "aria-live": "polite"}));
  const button = (key, act) => h("button", {"data-key": key, id: key, onclick: () => page.tried(act)}, t(`unit.${key}`));
  const isRetired = target.tags.includes(RETIRED);
  return ifSteers(() => [p("buttons", button("newToken", () => giveToken(target, told, page)),
    isRetired ? button("bringBack", () => bringBack(target, told, page)) : null, button("retire", () => retire(target, page))), told]);
}
