// Limits of the server that are told before a byte is sent.
import {t} from "./language.js";

export const LARGEST = 4_194_304;
export const FILES = 8;
export const MODULES = 8;
export const GROUPS = 50;
export const TEXT = 128;

const WORD = /^[A-Za-z0-9._-]+$/;
const LETTERS = "A-Z a-z 0-9 . _ -";

/** How many bytes a text has on the way. */
export const bytesOf = (text) => new TextEncoder().encode(text).length;

/** Whether it is an id or a tag. */
export const isWord = (text) => WORD.test(text) && text.length <= 64;

/** Why a file is too large, or nothing. */
export const tooLarge = ({name, size}) =>
  (size > LARGEST ? t("limits.tooLarge", {name, size, most: LARGEST}) : "");

/** Why a text is no name of a file on the server, or nothing. */
export function noFilename(name) {
  if (WORD.test(name) && name.length <= 128) {
    return "";
  }
  return t("limits.noFilename", {name, letters: LETTERS});
}

/** Why a text is no name, type or version, or nothing. */
export const longText = (text) => (bytesOf(text) > TEXT ? t("limits.longText", {size: bytesOf(text), most: TEXT}) : "");
