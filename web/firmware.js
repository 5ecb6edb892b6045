// Firmware: modules, and the sets that are made of them, the newest first.
import {all, ask, page as pageOf} from "./api.js";
import {adding, field, h, link, p, settle, sure, table, text, typed} from "./drawing.js";
import {t} from "./language.js";
import {MODULES as MOST} from "./limits.js";
import {ifSteers} from "./me.js";
import {MODULES} from "./module.js";
import {newFirmwareForm} from "./newfirmware.js";
import {SETS, titleOf} from "./records.js";

const SHOWN = 50;

function moduleForm(page) {
  const send = async (form) => {
    const [made] = await ask("POST", MODULES, [typed(form)]);
    return t("firmware.moduleAdded", {id: made.id, title: titleOf(made)});
  };
  return adding("new-module", t("firmware.addTheModule"), [
    field("module-name", t("firmware.name"), text("name")),
    field("module-type", t("firmware.type"), text("type", {placeholder: "os"})),
    field("module-version", t("firmware.version"), text("version")),
  ], send, page);
}

/** Asks whether these modules may be locked, and names those without a file. */
async function locks(name, modules) {
  const empty = [];
  for (const it of modules) {
    const {total} = await pageOf(`${MODULES}/${it.id}/artifacts`, 0, 1);
    empty.push(...(total ? [] : [titleOf(it)]));
  }
  const names = modules.map(titleOf).join(", ");
  const locked = t("firmware.locks", {n: modules.length, names});
  const without = empty.length ? [t("firmware.empty", {n: empty.length, names: empty.join(", ")})] : [];
  return sure(t("firmware.setQuestion", {name}), [locked, ...without], t("firmware.makeTheSet"));
}

// the boxes of the form's modules, which stay as they are while others are searched for
let boxes = new Map();

function boxOf(it) {
  if (!boxes.has(it.id)) {
    boxes.set(it.id, h("label", {class: "choice", "data-key": it.id}, h("input", {type: "checkbox", name: "module", value: it.id}), titleOf(it)));
  }
  return boxes.get(it.id);
}

const isChosen = (it) => boxes.get(it.id)?.firstChild.checked;

function setForm(page) {
  boxes = new Map();
  const send = async (form) => {
    const {name, version} = typed(form);
    const chosen = modules.filter(isChosen);
    if (!chosen.length || chosen.length > MOST) {
      throw new Error(t(chosen.length ? "firmware.manyChosen" : "firmware.noneChosen", {most: MOST, count: chosen.length}));
    }
    if (!await locks(`${name} ${version}`, chosen)) {
      return null;
    }
    const [made] = await ask("POST", SETS, [{name, version, modules: chosen.map(({id}) => ({id}))}]);
    return t("firmware.setAdded", {id: made.id, title: titleOf(made)});
  };
  return adding("new-set", t("firmware.makeTheSet"), [
    field("set-name", t("firmware.name"), text("name")),
    field("set-version", t("firmware.version"), text("version")),
    h("fieldset", {}, h("legend", {}, t("firmware.choices", {most: MOST})), h("div", {class: "choices", id: "set-modules"})),
  ], send, page);
}

/** Those that are searched for, the newest first. */
const found = (things, wanted) => things.filter((it) => `${titleOf(it)} ${it.type ?? ""}`.toLowerCase().includes(wanted.toLowerCase())).reverse();

function newest(label, none, heads, things, row) {
  const more = things.length > SHOWN ? p("hint", t("firmware.newest", {shown: SHOWN, total: things.length})) : null;
  return things.length ? [table(label, heads.map((it) => t(it)), things.slice(0, SHOWN).map(row)), more] : p("empty", none);
}

// all that the desk has
let modules = [];

export const view = {
  title: () => t("frame.firmware"),
  load: async () => ({modules: await all(MODULES), sets: await all(SETS)}),
  draw(data, page) {
    const {sets} = data;
    modules = data.modules;
    const names = new Map(modules.map((it) => [it.id, titleOf(it)]));
    const moduleRow = (it) => [link(`#/firmware/modules/${it.id}`, titleOf(it)), it.type, t(it.locked ? "firmware.inSet" : "firmware.takesFiles")];
    const moduleLink = ({id}) => link(`#/firmware/modules/${id}`, names.get(id) ?? t("firmware.unknownModule", {id}));
    const setRow = (it) => [titleOf(it), it.modules.map((one, at) => [at ? ", " : "", moduleLink(one)])];
    const control = () => h("input", {type: "search", autocomplete: "off", oninput: page.redraw});
    const search = page.kept("search", () => field("firmware-search", t("firmware.search"), control(), t("firmware.searchHint")));
    const wanted = search.querySelector("input").value;
    const set = page.kept("set", () => h("details", {class: "card"}, h("summary", {}, t("firmware.makeSet")), setForm(page)));
    const offered = found(modules, wanted);
    settle(set.querySelector("#set-modules"), [...offered.filter(isChosen), ...modules.filter((it) => isChosen(it) && !offered.includes(it)),
      ...offered.filter((it) => !isChosen(it)).slice(0, SHOWN)].map(boxOf));
    return [
      ifSteers(() => page.kept("ship", () => newFirmwareForm(page))),
      search,
      h("h2", {}, t("firmware.modules")),
      ifSteers(() => page.kept("module", () => h("details", {class: "card"}, h("summary", {}, t("firmware.addModule")), moduleForm(page)))),
      newest(t("firmware.modules"), t("firmware.noModules"), ["firmware.module", "firmware.type", "module.files"], offered, moduleRow),
      h("h2", {}, t("firmware.sets")),
      ifSteers(() => set),
      newest(t("firmware.sets"), t("firmware.noSets"), ["firmware.set", "firmware.modules"], found(sets, wanted), setRow),
    ];
  },
};
