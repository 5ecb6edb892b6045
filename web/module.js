// A module: its files, and one more.
import {all, get, upload} from "./api.js";
import {urlOf} from "./place.js";
import {adding, field, h, link, p, settle, table, typed, word} from "./drawing.js";
import {t} from "./language.js";
import {FILES, LARGEST, noFilename, tooLarge} from "./limits.js";
import {ifSteers} from "./me.js";
import {titleOf} from "./records.js";

export const MODULES = "/rest/v1/softwaremodules";

const hexadecimal = (bytes) => [...new Uint8Array(bytes)].map((it) => it.toString(16).padStart(2, "0")).join("");

/** The SHA-256 of a file, or null where the browser computes none: it does so over https and on this machine alone. */
export const digestOf = async (file) => (crypto.subtle ? hexadecimal(await crypto.subtle.digest("SHA-256", await file.arrayBuffer())) : null);

/** Why the server would refuse the file, or nothing. */
export const faultOf = ({file, filename}) => tooLarge(file) || noFilename(filename || file.name);

/** Sends a file with its digest and shows how much of it has gone; answers what arrived. */
export async function sendFile(module, {file, filename}, told) {
  settle(told, [t("module.computes")]);
  const sha256 = await digestOf(file);
  const query = new URLSearchParams({filename: filename || file.name, ...(sha256 && {sha256})});
  const bar = h("progress", {max: 1, "aria-label": t("module.sent")});
  const percent = h("span", {});
  settle(told, [h("p", {}, sha256 ? ["SHA-256 ", h("code", {}, sha256)] : t("module.unguarded")), h("p", {}, bar, " ", percent)]);
  const made = await upload(`${MODULES}/${module.id}/artifacts?${query}`, file, (gone, whole) => {
    bar.value = gone / whole;
    percent.textContent = t("module.progress", {gone, whole});
  });
  const guard = t(sha256 ? "module.arrived" : "module.unguarded");
  return t("module.fileAdded", {name: made.providedFilename, bytes: t("n.bytes", {n: made.size}), digest: made.hashes.sha256, guard});
}

function uploadForm(module, page) {
  const told = h("div", {id: "upload-told", "aria-live": "polite"});
  const fault = (form) => {
    const values = typed(form);
    return values.file?.name ? faultOf(values) : "";
  };
  const tell = (words) => settle(told, words ? [p("notice bad", words)] : []);
  const send = async (form) => {
    if (fault(form)) {
      tell(fault(form));
      return null;
    }
    try {
      return await sendFile(module, typed(form), told);
    } finally {
      settle(told, []);
    }
  };
  const form = adding("upload", t("module.upload"), [
    field("upload-file", t("module.file"), h("input", {type: "file", name: "file", required: true}),
      t("module.fileHint", {most: LARGEST, files: FILES})),
    field("upload-name", t("module.filename"), word("filename", 128, {required: false}), t("module.filenameHint")),
  ], send, page);
  form.onchange = () => tell(fault(form));
  return h("section", {class: "card", "aria-label": t("module.upload")}, h("h2", {}, t("module.addFile")), form, told);
}

export const view = {
  title: (it) => titleOf(it.module),
  async load([id]) {
    return {module: await get(`${MODULES}/${id}`), artifacts: await all(`${MODULES}/${id}/artifacts`)};
  },
  draw({module: it, artifacts}, page) {
    const row = (file) => [h("a", {href: urlOf(`${MODULES}/${it.id}/artifacts/${file.id}/download`), download: file.providedFilename},
      file.providedFilename), t("n.bytes", {n: file.size}), h("code", {class: "digest"}, file.hashes.sha256)];
    const form = () => page.kept("upload", () => uploadForm(it, page));
    const full = artifacts.length >= FILES ? p("hint", t("module.full", {files: FILES})) : ifSteers(form);
    return [
      h("p", {}, link("#/firmware", t("module.back"))),
      p("facts", t("module.facts", {id: it.id, type: it.type})),
      artifacts.length ? table(t("module.files"), [t("module.file"), t("module.size"), "SHA-256"], artifacts.map(row)) : p("empty", t("module.noFile")),
      it.locked ? p("hint", t("module.locked")) : full,
    ];
  },
};
