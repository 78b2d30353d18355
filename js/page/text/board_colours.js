// Syntax colouring of the board's text.

import { splitTomlWords } from "../../core/text/toml_words.js";

/** @typedef {import("./line_colours.js").ColouredRange} ColouredRange */

/**
 * Returns a list with the range of the comment at the end of a line, or an empty list if the line has no comment.
 * @param {string} line
 * @param {number} from the column after the line's last token
 * @returns {ColouredRange[]}
 */
function findComment(line, from) {
  const index = line.indexOf("#", from);
  return index < 0 ? [] : [{ from: index, to: line.length, style: "comment" }];
}

/**
 * Returns the style class of a token. Tokens before the line's `=` are TOML keys.
 * @param {import("../../core/text/toml_words.js").TomlWord} word
 * @param {boolean} isTomlKey
 */
function styleOfToken({ kind, text }, isTomlKey) {
  if (kind === "punctuation") return text === "[" || text === "]" ? "bracket" : "";
  if (isTomlKey) return "property";
  if (kind === "string" || kind === "bad") return "string";
  return /^[+-]?\d/.test(text) ? "number" : "atom";
}

/**
 * @param {string} line
 * @returns {ColouredRange[]}
 */
export function colourBoardLine(line) {
  const words = splitTomlWords([line]).filter(({ kind }) => kind !== "end");
  const lastWord = words[words.length - 1];
  const commentRanges = findComment(line, lastWord ? lastWord.to : 0);
  const headerMatch = /^\s*\[[^\]]*\]?\]?/.exec(line);
  if (headerMatch) return [{ from: 0, to: headerMatch[0].length, style: "atom" }, ...commentRanges];
  const equalsSign = words.find(({ kind, text }) => kind === "punctuation" && text === "=");
  /** @param {{ from: number }} word */
  const isTomlKey = ({ from }) => equalsSign !== undefined && from < equalsSign.from;
  const ranges = words.map((word) => ({ from: word.from, to: word.to, style: styleOfToken(word, isTomlKey(word)) }));
  return [...ranges.filter(({ style }) => style !== ""), ...commentRanges];
}
