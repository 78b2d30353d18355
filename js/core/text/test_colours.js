// Syntax colours for test and properties texts.

import { KEYWORDS } from "../conditions/parser.js";

/**
 * A range of columns in a line, and its style, which is the name of a syntax colour such as `keyword`.
 * @typedef {{ from: number, to: number, style: string }} ColouredRange
 */

/**
 * The description of a language:
 * - `first` matches the keywords that can start a line; `otherKeywords` contains the keywords that can follow;
 * - `nameKeyword` is the first word of a line that continues with a name; "" for none;
 * - `uncommentedStart` matches the first words of lines in which no comment can follow;
 * - `startsWithCondition` is true if a line can start with a condition.
 */
const TEST_LANGUAGE = {
  first: /^(test|steps|from|save|press|release|keys|pace|run|until|expect|mark|set|reset|do|repeat|end)$/,
  otherKeywords: new Set([...KEYWORDS, "within"]),
  nameKeyword: "test",
  uncommentedStart: /^(test|press|release|keys)$/,
  startsWithCondition: false,
};
const PROPERTY_LANGUAGE = {
  first: new RegExp("^(press|test|reset|together|wait|held|apart|from|begin|note|pace|never|always|at|after|every|no|reach|model|while|"
    + "once|not|lamps?|display)$"),
  otherKeywords: new Set([...KEYWORDS, "for", "only", "after", "press", "within", "to", "once", "each", "line", "below", "reaches"]),
  nameKeyword: "",
  uncommentedStart: /^/,
  startsWithCondition: true,
};

/**
 * Returns the style of a word; "" for none.
 * @param {string} word
 * @param {boolean} isFirst true for the first word of the line
 * @param {typeof TEST_LANGUAGE} language
 */
function chooseStyle(word, isFirst, { first, otherKeywords, startsWithCondition }) {
  if (isFirst && first.test(word)) return "keyword";
  if (isFirst && !startsWithCondition) return "error";
  if (word.startsWith("@")) return "def";
  if (/^(0x[0-9A-Fa-f]+|[\d.]+(us|ms|s)?|us|ms|s|[*.?]+)$/.test(word)) return "number";
  if (/^([<>=&+-]+|!=|\|\|)$/.test(word)) return "";
  return otherKeywords.has(word.replace(/^[(!]+|[,)]+$/g, "").toLowerCase()) ? "keyword" : "variable-2";
}

/**
 * Returns whether a comment starts at a word.
 * @param {string} restOfLine the rest of the line, starting at the word
 * @param {string} first the first word of the line; "" if `restOfLine` starts with this word
 * @param {typeof TEST_LANGUAGE} language
 */
function isComment(restOfLine, first, language) {
  // In a line with key names, a word such as `#` can be the name of a key.
  return /^[#;]/.test(restOfLine) && (first === "" || (!language.uncommentedStart.test(first) && /^[#;](\s|$)/.test(restOfLine)));
}

/**
 * Returns the styled ranges of a line.
 * @param {string} line
 * @param {typeof TEST_LANGUAGE} language
 */
function colourLine(line, language) {
  /** @type {ColouredRange[]} */
  const ranges = [];
  let first = "";
  for (const { 0: word, index = 0 } of line.matchAll(/\S+/g)) {
    const restOfLine = line.slice(index);
    const restStyle = isComment(restOfLine, first, language) ? "comment" : first !== "" && first === language.nameKeyword ? "string" : "";
    if (restStyle) return [...ranges, { from: index, to: line.length, style: restStyle }];
    const style = chooseStyle(word, first === "", language);
    if (style !== "") ranges.push({ from: index, to: index + word.length, style });
    if (first === "") first = word;
  }
  return ranges;
}

/** The functions that return the styled ranges of a line, by kind of text. */
export const LINE_COLOURERS = {
  tests: (/** @type {string} */ line) => colourLine(line, TEST_LANGUAGE),
  properties: (/** @type {string} */ line) => colourLine(line, PROPERTY_LANGUAGE),
};
