// The import of a file of devices: what it would change is asked first, and all that is wrong with a file that is refused is told.
import {all, ask, askText} from "./api.js";
import {field, h, p, settle, sure} from "./drawing.js";
import {changesOf, HEADER, isUtf16, isUtf8, readFleet} from "./fleetfile.js";
import {nodes, number, t} from "./language.js";
import {LARGEST, tooLarge} from "./limits.js";

/** So many bytes the proxy has read before it asks who sends them. */
const READ_WHOLE = 8_192;
// so many faults are told, and so many changes in the question
const FAULTS = 500;
const CHANGES = 8;

/** The records of a text with their lines, as the server counts them: empty lines are none, and a quoted value may have line ends. */
function recordsOf(text) {
  const found = [];
  let begin = 0, first = 1, line = 1, quoted = false, closed = false, fresh = true;
  for (let at = 0; at <= text.length; at += 1) {
    const letter = text[at] ?? "\n";
    if (at < text.length && (quoted || (letter === '"' && (fresh || closed)))) {
      closed = quoted && letter === '"';
      quoted = !closed;
      fresh = false;
    } else if (letter === "\n" || letter === "\r") {
      found.push({text: text.slice(begin, at), line: first});
      [begin, first, fresh, closed] = [at + 1, line + (letter === "\n"), true, false];
    } else {
      [fresh, closed] = [letter === ",", false];
    }
    line += letter === "\n";
  }
  return found.filter((it) => it.text);
}

/** Why a file is wrong as a whole, of which the server tells no line. */
function wrongWhole(bytes) {
  if (!bytes.length) {
    return t("import.empty");
  }
  if (isUtf16(bytes)) {
    return t("import.utf16");
  }
  return t(bytes.at(-1) === 10 ? "import.whole" : "import.lineFeed");
}

/** The record of a file that the server calls wrong, by its number; the file's line is told where that is another one. */
function wrongRecord(bytes, wrong) {
  if (!wrong) {
    return p("", wrongWhole(bytes));
  }
  const record = recordsOf(new TextDecoder().decode(bytes))[wrong - 1];
  if (!record || isUtf16(bytes)) {
    return p("", wrong === 1 && !isUtf16(bytes) ? t("import.noRecord", {header: HEADER}) : wrongWhole(bytes));
  }
  const line = h("strong", {"data-line": wrong}, number(wrong));
  const place = record.line === wrong ? nodes("import.line", {line}) : nodes("import.record", {line, at: record.line});
  const letters = record.text.includes("\ufffd") && !isUtf8(bytes) ? t("import.letters") : "";
  const text = h("code", {class: "fault"}, h("mark", {}, record.text));
  return h("p", {}, nodes(wrong === 1 ? "import.hasToBe" : "import.is", {place, header: HEADER, text, letters}));
}

/** Every fault of a file, with its line. */
function listOf(faults) {
  if (!faults.length) {
    return [];
  }
  const lines = t("n.lines", {n: new Set(faults.map(([line]) => line)).size});
  const row = ([line, word, values]) => h("li", {"data-line": line}, t("import.fault", {line, words: t(`fault.${word}`, values)}));
  return [p("", t("import.faults", {n: faults.length, lines})), h("ul", {}, faults.slice(0, FAULTS).map(row)),
    faults.length > FAULTS ? p("", t("import.more", {n: faults.length - FAULTS})) : null];
}

/** Whether an import is wanted: it is asked where devices that are there would be renamed or lose tags. */
async function isWanted(devices) {
  const {fresh, renamed, loses, gains} = changesOf(devices, await all("/rest/v1/targets"));
  const changes = [...renamed.map((it) => t("import.renames", it)), ...loses.map(({id, tags}) => t("import.loses", {id, tags: tags.join(" ")}))];
  if (!changes.length) {
    return true;
  }
  const counted = t("import.changes", {devices: t("n.devices", {n: devices.length}), fresh, renamed: renamed.length, loses: loses.length, gains});
  const more = changes.length > CHANGES ? [t("import.more", {n: changes.length - CHANGES})] : [];
  return Boolean(await sure(t("import.question"), [counted, ...changes.slice(0, CHANGES), ...more], t("import.button")));
}

export function importForm(page) {
  const told = h("div", {id: "import-told", "aria-live": "polite"}), wrong = h("div", {id: "import-faults"});
  const send = async (event) => {
    event.preventDefault();
    const file = event.target.elements.file.files[0];
    settle(wrong, []);
    if (tooLarge(file)) {
      settle(told, [p("notice bad", tooLarge(file))]);
      return;
    }
    settle(told, [t("import.sends", {name: file.name})]);
    const bytes = new Uint8Array(await file.arrayBuffer()), {devices, faults} = readFleet(bytes);
    try {
      // (a file with faults is left to the server to refuse)
      if (!faults.length && !(await isWanted(devices))) {
        settle(told, [p("notice", t("import.left"))]);
        return;
      }
      if (file.size > READ_WHOLE) {
        // (there is no such call) a browser sends its login along where it was asked for it; else the proxy refuses the file half-way
        await askText("GET", "/desk/v1/import").catch(() => null);
      }
      const {accepted} = await ask("POST", "/desk/v1/import", file);
      settle(told, [p("notice ok", t("import.done", {devices: t("n.devices", {n: accepted})}))]);
      page.refresh();
    } catch (refusal) {
      const isRecord = refusal.number === 14;
      settle(told, [p("notice bad", refusal.sentence ?? String(refusal)), isRecord ? wrongRecord(bytes, refusal.line) : null]);
      settle(wrong, isRecord ? listOf(faults) : []);
    }
  };
  return h("details", {class: "card"}, h("summary", {}, t("import.title")),
    h("form", {class: "row", onsubmit: send},
      field("import-file", t("import.file"), h("input", {type: "file", name: "file", accept: ".csv,text/csv", required: true}),
        t("import.hint", {header: HEADER, most: LARGEST})),
      h("button", {}, t("import.button"))),
    told, wrong);
}
