// Splits a TOML text into words with their positions, and marks invalid words.

import * as say from "../../words/text.js";

/**
 * A word of a TOML text: a punctuation mark, a string, a bare word, the end of a line, or an invalid word (`bad`). The text of a string has
 * no quotes; its range includes them. Line numbers start at 1. `error` is the error message for an invalid word; otherwise "".
 * @typedef {{ kind: "punctuation" | "string" | "bare" | "end" | "bad", text: string, line: number, from: number, to: number,
 *   error: string }} TomlWord
 */

const BLANK = /^[ \t]+/;
const COMMENT = /^#.*/;
const BARE_WORD = /^[A-Za-z0-9_+:-]+(\.[A-Za-z0-9_+:-]+)*/;
const STRING = /^"((?:\\.|[^"\\])*)"|^'([^']*)'/;

/**
 * Parses the word at an index in a line.
 * @param {string} text the text of the line
 * @param {number} line the line number from 1
 * @param {number} from the index
 * @returns {TomlWord}
 */
function parseWord(text, line, from) {
  const remainingText = text.slice(from);
  const string = STRING.exec(remainingText);
  if (string) {
    const content = string[1] === undefined ? string[2] : string[1];
    return { kind: "string", text: content, line, from, to: from + string[0].length, error: "" };
  }
  if (/^["']/.test(remainingText)) {
    const to = text.length;
    return { kind: "bad", text: remainingText, line, from, to, error: say.closingQuoteMissingMessage(remainingText[0]) };
  }
  const bareWord = BARE_WORD.exec(remainingText);
  if (bareWord) return { kind: "bare", text: bareWord[0], line, from, to: from + bareWord[0].length, error: "" };
  const isPunctuation = /^[[\]{}=,.]/.test(remainingText);
  const [character] = remainingText;
  const word = { text: character, line, from, to: from + 1 };
  return isPunctuation ? { kind: "punctuation", ...word, error: "" } : { kind: "bad", ...word, error: say.noMeaningMessage(character) };
}

/**
 * Returns the words of a TOML text, with an "end" word after each line.
 * @param {string[]} lines
 * @returns {TomlWord[]}
 */
export function splitTomlWords(lines) {
  /** @type {TomlWord[]} */
  const words = [];
  lines.forEach((rawLine, index) => {
    const text = rawLine.replace(/\r$/, "");
    for (let from = 0; from < text.length;) {
      const gap = BLANK.exec(text.slice(from)) || COMMENT.exec(text.slice(from));
      if (gap) {
        from += gap[0].length;
        continue;
      }
      const word = parseWord(text, index + 1, from);
      words.push(word);
      from = word.to;
    }
    words.push({ kind: "end", text: "", line: index + 1, from: text.length, to: text.length, error: "" });
  });
  return words;
}
