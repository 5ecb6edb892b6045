// A file of devices, read by the server's own rules, as `fwdesk-ctl import --check` does: what is wrong in which line, and what an import would change.
import {bytesOf, isWord, TEXT} from "./limits.js";

const COLUMNS = ["controllerid", "name", "token", "tags"];
const TAGS = 16;
const TOKEN = /^[A-Za-z0-9._-]*$/;

/** The first line that a file has to have. */
export const HEADER = COLUMNS.join(",");

/** Whether bytes are UTF-16 by their mark. */
export const isUtf16 = ([one, other]) => (one === 0xff && other === 0xfe) || (one === 0xfe && other === 0xff);

/** Whether bytes are UTF-8. */
export function isUtf8(bytes) {
  try {
    return new TextDecoder("utf-8", {fatal: true}).decode(bytes) !== null;
  } catch {
    return false;
  }
}

/** The records of a text, each with its values and the line where it begins; empty lines are none. A quote is one at the begin of a value alone. */
function recordsOf(text) {
  const found = [];
  let values = [], value = "", first = 1, line = 1, state = "fresh";
  const endValue = (next) => {
    values.push(value);
    [value, state] = ["", next];
  };
  const endRecord = () => {
    found.push(...(values.length ? [{line: first, values}] : []));
    [values, first, state] = [[], line, "fresh"];
  };
  for (let at = 0; at < text.length; at += 1) {
    const it = text[at], endsLine = it === "\n" || (it === "\r" && text[at + 1] !== "\n");
    line += endsLine;
    if (state === "quoted") {
      value += it === '"' ? "" : it;
      state = it === '"' ? "closed" : "quoted";
    } else if (it === "\n" || it === "\r") {
      if (state !== "fresh" && state !== "ended") {
        endValue("ended");
      }
      if (endsLine) {
        endRecord();
      }
    } else if (it === '"' && state !== "plain") {
      value += state === "closed" ? it : "";
      state = "quoted";
    } else if (it === ",") {
      endValue("begun");
    } else {
      [value, state] = [value + it, "plain"];
    }
  }
  if (state !== "fresh") {
    endValue("ended");
    endRecord();
  }
  return found;
}

/** The lines that have bytes which aren't UTF-8. */
function wrongLetters(bytes) {
  const found = [];
  for (let begin = 0, line = 1; !isUtf8(bytes) && begin < bytes.length; line += 1) {
    const end = (bytes.indexOf(10, begin) + 1 || bytes.length + 1) - 1;
    found.push(...(isUtf8(bytes.subarray(begin, end)) ? [] : [[line, "letters"]]));
    begin = end + 1;
  }
  return found;
}

function wrongName(name) {
  const size = bytesOf(name), isControl = (it) => it < " " || it === "\x7f";
  return [name ? null : ["nameEmpty"], size > TEXT ? ["nameLong", {size, most: TEXT}] : null, [...name].some(isControl) ? ["nameControl"] : null];
}

function wrongToken(token) {
  const size = [...token].length;
  return size < 8 || size > 64 ? ["tokenSize", {size}] : TOKEN.test(token) ? null : ["tokenLetter"];
}

function wrongTags(text) {
  const tags = text ? text.split(" ") : [], once = [...new Set(tags)].filter((it) => it);
  const times = (tag) => tags.filter((it) => it === tag).length;
  const words = tags.filter((it) => it && !isWord(it)).map((tag) => ["tagWord", {tag}]);
  const twice = once.filter((it) => times(it) > 1).map((tag) => ["tagTwice", {tag, times: times(tag)}]);
  return [tags.includes("") ? ["tagSpace"] : null, ...words, ...twice, tags.length > TAGS ? ["tagMany", {size: tags.length, most: TAGS}] : null];
}

function wrongValues(values) {
  if (values.some((it) => it.includes("\n"))) {
    return ["quote"];
  }
  if (values.length === COLUMNS.length) {
    return null;
  }
  return values.length === 1 && values[0].includes(";") ? ["semicolons"] : ["values", {size: values.length, most: COLUMNS.length}];
}

/** What a file has: its devices that are well, and its faults, each a line, a word of it and values. Of an empty one and one in UTF-16 it has nothing. */
export function readFleet(bytes) {
  if (!bytes.length || isUtf16(bytes)) {
    return {devices: [], faults: []};
  }
  const [head, ...records] = recordsOf(new TextDecoder().decode(bytes));
  const devices = [], faults = wrongLetters(bytes), lines = new Map();
  if (head?.values.join() !== HEADER || head.values.length !== COLUMNS.length) {
    faults.push([1, "header", {text: head?.values.join() ?? "", header: HEADER}]);
  }
  for (const {line, values} of records) {
    const [id, name, token, tags] = values, wrong = wrongValues(values);
    const wrongId = isWord(id) ? lines.has(id) ? ["idTwice", {id, line: lines.get(id)}] : null : ["idWord", {id}];
    const found = wrong ? [wrong] : [wrongId, ...wrongName(name), wrongToken(token), ...wrongTags(tags)].filter((it) => it);
    if (!wrong && !lines.has(id)) {
      lines.set(id, line);
    }
    faults.push(...found.map((it) => [line, ...it]));
    devices.push(...(found.length ? [] : [{id, name, tags: tags ? tags.split(" ") : []}]));
  }
  return {devices, faults: faults.sort(([one], [other]) => one - other)};
}

/** What an import of devices would change of the targets that are there. */
export function changesOf(devices, there) {
  const known = new Map(there.map((it) => [it.controllerId, it]));
  const without = (tags, others) => tags.filter((it) => !others.includes(it));
  const pairs = devices.map((it) => [it, known.get(it.id)]), old = pairs.filter(([, before]) => before);
  return {
    fresh: devices.length - old.length,
    renamed: old.filter(([it, before]) => it.name !== before.name).map(([it, before]) => ({id: it.id, from: before.name, to: it.name})),
    loses: old.map(([it, before]) => ({id: it.id, tags: without(before.tags, it.tags)})).filter((it) => it.tags.length),
    gains: old.filter(([it, before]) => without(it.tags, before.tags).length).length,
  };
}
