// New firmware by one form: its module, its file and a set of it, each told as it is done. What is there already is taken, so a second press goes on.
import {all, ask} from "./api.js";
import {field, h, link, p, settle, text, typed} from "./drawing.js";
import {nodes, number, t} from "./language.js";
import {LARGEST} from "./limits.js";
import {digestOf, faultOf, MODULES, sendFile} from "./module.js";
import {SETS, titleOf} from "./records.js";

// how an image's name ends
const ENDS = /\.(tar|gz|xz|bz2|zst|zip|raucb|swu|bin|img|hex|elf|mender|deb|rpm|wic|ext4|squashfs|sig)$/i;
const VERSION = /^(.+?)[-_. ]v?(\d[\w.+~-]*)$/i;
const TYPE = "os";

/** The name and the version in the name of a file: `pump-control_2.1.raucb` is pump-control 2.1. */
function readName(filename) {
  let base = filename;
  while (ENDS.test(base)) {
    base = base.replace(ENDS, "");
  }
  const [, name, version] = VERSION.exec(base) ?? [null, base, ""];
  return {name, version};
}

const same = (one, other) => one.name === other.name && one.version === other.version;

/** Step 1: the module of this name, type and version, which may be there. */
async function makeModule({name, type, version}) {
  const there = (await all(MODULES)).find((it) => same(it, {name, version}) && it.type === type);
  const [made] = there ? [there] : await ask("POST", MODULES, [{name, type, version}]);
  return {module: made, words: t(there ? "ship.moduleThere" : "ship.module", {id: made.id, title: titleOf(made)})};
}

/** Step 2: its file. A module that has another one isn't this firmware. */
async function putFile({module, file, filename}, told) {
  const name = filename || file.name, files = await all(`${MODULES}/${module.id}/artifacts`);
  const there = files.find((it) => it.providedFilename === name), digest = await digestOf(file);
  if (there && there.size === file.size && (!digest || there.hashes.sha256 === digest)) {
    return {words: t("ship.fileThere", {name})};
  }
  if (there || module.locked) {
    throw new Error(t("ship.otherFile", {title: titleOf(module), name}));
  }
  return {words: await sendFile(module, {file, filename}, told)};
}

/** Step 3: the set of this module alone. */
async function makeSet({module, name, version}) {
  const there = (await all(SETS)).find((it) => same(it, {name, version}));
  if (there && !(there.modules.length === 1 && there.modules[0].id === module.id)) {
    throw new Error(t("ship.otherSet", {id: there.id, title: titleOf(there)}));
  }
  const [set] = there ? [there] : await ask("POST", SETS, [{name, version, modules: [{id: module.id}]}]);
  return {set, words: t(there ? "ship.setThere" : "ship.set", {id: set.id, title: titleOf(set)})};
}

const STEPS = [["ship.step1", makeModule], ["ship.step2", putFile], ["ship.step3", makeSet]];
const SIGNS = {done: "✓", now: "…", failed: "✕", later: "○"};

/** Does each step with what the ones before it gave, and shows it; answers what all gave, or null where one failed. */
async function ship(given, told) {
  const shown = STEPS.map(([words]) => ({state: "later", words: t(words)}));
  const progress = h("div", {});
  const show = (...more) => settle(told, [h("ol", {class: "steps"}, shown.map(({state, words}, k) =>
    h("li", {"data-key": k, "data-state": state}, h("span", {class: "sign", "aria-hidden": true}, SIGNS[state]), " ", words))), progress, more]);
  let known = given;
  for (const [k, [, step]] of STEPS.entries()) {
    shown[k].state = "now";
    show();
    try {
      const {words, ...more} = await step(known, progress);
      Object.assign(shown[k], {state: "done", words});
      known = {...known, ...more};
    } catch (refusal) {
      Object.assign(shown[k], {state: "failed", words: refusal.sentence ?? refusal.message});
      settle(progress, []);
      show(p("notice bad", t(k ? "ship.failedLater" : "ship.failedFirst")));
      return null;
    }
  }
  settle(progress, []);
  const plan = link(`#/rollouts/new?set=${known.set.id}`, t("ship.planLink"));
  show(p("notice ok", h("span", {}, nodes("ship.ready", {title: titleOf(known.set), link: plan}))));
  return known;
}

/** The form: a file is dropped or chosen, and its name is read. */
export function newFirmwareForm(page) {
  const told = h("div", {id: "ship-told", "aria-live": "polite"});
  const input = h("input", {type: "file", name: "file", required: true});
  const name = text("name"), version = text("version"), type = text("type", {value: TYPE});
  const fault = () => (input.files[0] ? faultOf({file: input.files[0]}) : "");
  let busy = false;
  const read = () => {
    const [file] = input.files, found = file ? readName(file.name) : {name: "", version: ""};
    name.value = found.name;
    version.value = found.version;
    settle(told, fault() ? [p("notice bad", fault())] : []);
  };
  const send = async (event) => {
    event.preventDefault();
    if (busy || fault()) {
      return;
    }
    busy = true;
    const values = typed(event.target), before = location.hash;
    const made = await ship(values, told);
    busy = false;
    if (made && location.hash === before) {
      event.target.reset();
      type.value = values.type;
      page.refresh();
    }
  };
  const zone = h("div", {class: "drop", id: "drop"}, field("ship-file", t("ship.file"), input, t("ship.fileHint", {most: number(LARGEST)})));
  zone.ondragover = (event) => event.preventDefault();
  zone.ondrop = (event) => {
    event.preventDefault();
    input.files = event.dataTransfer.files;
    read();
  };
  input.onchange = read;
  const form = h("form", {id: "ship", onsubmit: send}, zone, h("div", {class: "row"}, field("ship-name", t("firmware.name"), name),
    field("ship-version", t("firmware.version"), version), field("ship-type", t("firmware.type"), type)),
    p("buttons", h("button", {class: "main"}, t("ship.button"))));
  return h("section", {class: "card", "aria-label": t("ship.title")}, h("h2", {}, t("ship.title")), p("hint", t("ship.says")), form, told);
}
