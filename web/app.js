// Leads from an address to what it shows, keeps that up to date, and says what went wrong.
import {view as action} from "./action.js";
import {events, gently, Refusal} from "./api.js";
import {showBrake} from "./brake.js";
import {showComing} from "./coming.js";
import {h, plain, settle} from "./drawing.js";
import {view as devices} from "./devices.js";
import {view as firmware} from "./firmware.js";
import {view as fleet} from "./fleet.js";
import {showFleets} from "./fleets.js";
import {showLanguages, t, translateFrame, written} from "./language.js";
import {begun, isInstalled, lastTold, looked, ready, state, told} from "./live.js";
import {introduce} from "./me.js";
import {view as log} from "./log.js";
import {view as members} from "./members.js";
import {view as module} from "./module.js";
import {view as now} from "./now.js";
import {view as plan} from "./plan.js";
import {view as rollout} from "./rollout.js";
import {view as rollouts} from "./rollouts.js";
import {view as target} from "./target.js";
import {showWatch} from "./watching.js";

const VIEWS = [
  [/^\/now$/, now],
  [/^\/devices$/, devices],
  [/^\/history$/, log],
  [/^\/rollouts$/, rollouts],
  [/^\/rollouts\/new$/, plan],
  [/^\/rollouts\/(\d+)$/, rollout],
  [/^\/rollouts\/(\d+)\/groups\/(\d+)$/, members],
  [/^\/targets$/, fleet],
  [/^\/targets\/([\w.-]+)$/, target],
  [/^\/targets\/([\w.-]+)\/actions\/(\d+)$/, action],
  [/^\/firmware$/, firmware],
  [/^\/firmware\/modules\/(\d+)$/, module],
];

/** What an address leads to that leads nowhere: what the server says of such a number. */
const NOWHERE = {
  async load() {
    throw new Refusal(404, {number: 3});
  },
};

const place = (id) => document.getElementById(id);
const CLOCK = {hour: "2-digit", minute: "2-digit", second: "2-digit"};
const clock = () => written(new Date(), CLOCK);

/** What is shown: its view, its data, and the parts that keep what is typed into them. */
let shown = null;

/** How far each address was scrolled, for the way back. */
const scrolled = new Map();

/** What is said once the next view is there. */
let carried = null;

const page = {
  /** Goes to another address, and says something there. */
  go(address, words = null) {
    carried = words;
    location.hash = address;
  },
  /** Asks anew for all that is shown, after a command. */
  refresh() {
    shown.anew = true;
    shown.loop.now();
  },
  redraw: () => shown.data && draw(shown),
  /** The address that is shown, without its query. */
  here: () => location.hash.split("?")[0],
  /** Says it in place of what was said before; without words nothing. */
  say(kind, words) {
    settle(place("notice"), !words ? [] : [h("p", {class: `notice ${kind}`, "data-key": Date.now()}, words,
      h("button", {class: "small", "aria-label": t("app.putAway"), onclick: () => settle(place("notice"), [])}, "✕"))]);
  },
  /** Does it, and says what the server refuses. */
  async tried(work) {
    try {
      await work();
    } catch (refusal) {
      page.say("bad", refusal.sentence ?? refusal.message);
      if (refusal.isLost) {
        page.refresh();
      }
    }
  },
  /** A part that is drawn once for as long as the view is shown. */
  kept(key, make) {
    if (!shown.parts.has(key)) {
      const part = make();
      part.dataset.key = `kept ${key}`;
      shown.parts.set(key, part);
    }
    return shown.parts.get(key);
  },
};

function draw(view) {
  const title = view.view.title(view.data);
  document.title = `${plain(title)} · fwdesk`;
  settle(place("main"), [h("h1", {tabindex: -1}, title), view.view.draw(view.data, page)]);
}

/** What a console alone tells is as old as its last look, whatever the server has answered since. */
const isOld = () => shown?.view.isTold && lastTold();

/** While the console tells what is, the page is as old as its last look. */
function tellAge() {
  if (state() || isOld()) {
    place("asked").textContent = t("app.asOf", {clock: written(looked(), CLOCK)});
  }
}

/** Asks for what a view shows, and draws it where the view is still the one that is shown. */
async function update(view) {
  if (view.data && view.view.still) {
    return;
  }
  const before = view.anew ? null : view.data ?? view.before;
  view.anew = false;
  try {
    await ready();
    const data = await view.view.load(view.parameters, view.query, before);
    if (view !== shown) {
      return;
    }
    const first = !view.data;
    if (first) {
      place("main").replaceChildren();
    }
    view.data = data;
    place("main").removeAttribute("aria-busy");
    draw(view);
    tellAge();
    if (first && view.moved) {
      place("main").querySelector("h1").focus({preventScroll: true});
      scrollTo(0, scrolled.get(location.hash) ?? 0);
    }
  } catch (refusal) {
    const words = refusal.sentence ?? String(refusal);
    if (view === shown && !view.data) {
      place("main").removeAttribute("aria-busy");
      place("main").replaceChildren(h("h1", {tabindex: -1}, t("app.notShown")), h("p", {class: "notice bad"}, words));
    }
    place("asked").textContent = `${clock()} ${words}`;
    throw refusal;
  }
}

function show(moved) {
  const [address, query] = (location.hash.slice(1) || (isInstalled() ? "/now" : "/rollouts")).split("?");
  const [pattern, view] = VIEWS.find(([it]) => it.test(address)) ?? [/^/, NOWHERE];
  shown?.loop.end();
  const parameters = pattern.exec(address).slice(1);
  // another query of the same things begins with what is known of them
  const before = shown?.address === address ? shown.data : null;
  const next = {view, address, moved, parameters, before, query: new URLSearchParams(query), parts: new Map()};
  shown = next;
  place("asked").textContent = t("list.loading");
  place("main").setAttribute("aria-busy", "true");
  next.loop = gently(() => update(next));
  for (const it of place("pages").children) {
    it.setAttribute("aria-current", address.startsWith(it.hash.slice(1)) ? "page" : "false");
  }
}

/** A failed store or a stopped server stays in view; what the proxy says in its place goes with the next answer. */
events.addEventListener("fault", ({detail}) => {
  const kept = detail.isStore ? "store" : "away";
  const more = t(detail.isStore ? "app.storeFailed" : "app.asksAgain");
  if (kept === "store" || !place("banner").querySelector("[data-key=store]")) {
    const away = kept === "store" ? h("button", {class: "small", onclick: () => settle(place("banner"), [])}, t("app.seen")) : null;
    settle(place("banner"), [h("p", {class: "notice bad", "data-key": kept}, `${clock()} ${detail.sentence}${more}`, away)]);
  }
});

events.addEventListener("answer", () => {
  if (!isOld()) {
    place("asked").textContent = t("app.asOf", {clock: clock()});
  }
  if (place("banner").querySelector("[data-key=away]")) {
    settle(place("banner"), []);
  }
});

/** Views that only a console can show are led to where there is one. */
told.addEventListener("look", () => document.querySelectorAll("#pages .console").forEach((it) => (it.hidden = !isInstalled())));

told.addEventListener("look", tellAge);

place("skip").onclick = (event) => {
  event.preventDefault();
  place("main").focus();
};
// each address has its own place, which the browser doesn't know
history.scrollRestoration = "manual";
let at = location.hash;
// while the next view is asked for the one before is still there, and moves
addEventListener("scroll", () => place("main").hasAttribute("aria-busy") || scrolled.set(at, scrollY), {passive: true});
addEventListener("hashchange", () => {
  at = location.hash;
  settle(place("notice"), []);
  if (carried) {
    page.say("ok", carried);
  }
  carried = null;
  show(true);
});
translateFrame();
showLanguages(place("language"));
showFleets(place("fleets"));
showComing(place("coming"));
showWatch(place("watching"));
Promise.all([introduce(place("who")), begun]).then(() => {
  showBrake(place("held"), page);
  show(false);
});
