// Defines the grammar of bench lines: their words and number ranges. If the bench rejects a line, `findLineError` names the wrong word.

import { ANSWER_FORMATS } from "./answer_table.js";
import { INVALID_CHARACTER, LINE_TOO_LONG, MAX_LINE_LENGTH, MAX_PLACES, NOT_ASCII } from "./inputs.js";
import { indices } from "./numbers.js";
import { findSimilarWords } from "../text/similar_words.js";
import * as say from "../../words/lines.js";

/**
 * The error in a line: the bench's error number, and a message that names the wrong word.
 * @typedef {{ number: number, message: string }} BenchLineError
 *
 * The syntax of a kind of place: the pattern of its name, the maximum of each number in the name (`maxima`), and the maximum value of the
 * place (`maxValue`).
 * @typedef {{ pattern: RegExp, maxima: number[], maxValue: number }} PlaceSyntax
 * @typedef {[number, number]} Range the first and the last number
 */

/** The error numbers of the bench for a line that is not a command, and for a number that is out of range. */
const NOT_A_COMMAND = 10;
const BAD_NUMBER = 11;
const MAX_BIT = 1;
const MAX_BANK = 7;
const MAX_NIBBLE = 15;
const MAX_BYTE = 255;
const MAX_ADDRESS = 4095;
/** The maximum number of cycles in a `trace` or `count` line. */
const MAX_CYCLES = 100000;
const MAX_NUMBER = 4294967295;
/** The maximum number of lines that a `list` query can ask for. */
const MAX_LISTED_LINES = 256;

/** @type {(max: number) => Range} returns the range from 0 to `max` */
const rangeTo = (max) => [0, max];
/** @type {Record<string, Range[]>} the ranges of the numbers in a line, by the first word of the line */
const NUMBER_RANGES = {
  press: [rangeTo(MAX_BYTE), rangeTo(MAX_BYTE)],
  release: [rangeTo(MAX_BYTE), rangeTo(MAX_BYTE)],
  run: [rangeTo(MAX_NUMBER)],
  test: [rangeTo(MAX_BIT)],
  break: [rangeTo(MAX_ADDRESS)],
  unbreak: [rangeTo(MAX_ADDRESS)],
  watch: [rangeTo(MAX_BANK), rangeTo(MAX_BYTE)],
  unwatch: [rangeTo(MAX_BANK), rangeTo(MAX_BYTE)],
  ram: [rangeTo(MAX_BANK)],
  list: [rangeTo(MAX_ADDRESS), [1, MAX_LISTED_LINES]],
  count: [[1, MAX_CYCLES]],
};
const NUMERAL = "(0x[0-9a-fA-F]+|[0-9]+)";

/**
 * @type {(form: string, maxima: number[], maxValue?: number) => PlaceSyntax} creates the syntax of a place; each `N` in `form` matches a
 *   number
 */
const syntaxOf = (form, maxima, maxValue = 0) => ({
  pattern: new RegExp(`^${form.replace(/\./g, "\\.").replace(/N/g, NUMERAL)}$`), maxima, maxValue,
});
/** The places that `poke` and `trace` accept. */
const PLACE_SYNTAXES = [
  syntaxOf("acc", [], MAX_NIBBLE), syntaxOf("cy", [], MAX_BIT), syntaxOf("pc", [], MAX_ADDRESS), syntaxOf("dcl", [], MAX_BANK),
  syntaxOf("rN", [MAX_NIBBLE], MAX_NIBBLE), syntaxOf("rom.N", [MAX_ADDRESS], MAX_BYTE),
  syntaxOf("ram.N.N", [MAX_BANK, MAX_BYTE], MAX_NIBBLE), syntaxOf("st.N.N.N", [MAX_BANK, MAX_NIBBLE, 3], MAX_NIBBLE),
];
/** The places that only `trace` accepts. */
const TRACE_ONLY_SYNTAXES = [
  syntaxOf("lamps", []), syntaxOf("ret", []), syntaxOf("src", []),
  syntaxOf("romN", [MAX_NIBBLE]), syntaxOf("ramN.N", [MAX_BANK, 3]), syntaxOf("chainN", [3]),
  syntaxOf("romN.N", [MAX_NIBBLE, 3]), syntaxOf("ramN.N.N", [MAX_BANK, 3, 3]), syntaxOf("chainN.N", [3, 79]),
];
/** Place names for completion and suggestions. A name that ends with a dot is incomplete. */
export const POKE_PLACE_NAMES = ["acc", "cy", "pc", "dcl", ...indices(16).map((register) => `r${register}`), "rom.", "ram.", "st."];
export const TRACE_PLACE_NAMES = [...POKE_PLACE_NAMES, "lamps", "ret", "src"];

/** @type {(word: string) => number} returns the value of a numeral; NaN for any other word */
const parseNumeral = (word) => (new RegExp(`^${NUMERAL}$`).test(word) ? Number(word) : NaN);

/**
 * Returns an error if a word is not a number in the range, otherwise null.
 * @param {string} word
 * @param {Range} range
 * @returns {BenchLineError | null}
 */
function findRangeError(word, [first, last]) {
  const number = parseNumeral(word);
  return number >= first && number <= last ? null : { number: BAD_NUMBER, message: say.notInRangeMessage(word, first, last) };
}

/**
 * Returns the syntax that a place matches; null if the word is not a place.
 * @param {string} word
 * @param {PlaceSyntax[]} syntaxes
 */
function findPlaceSyntax(word, syntaxes) {
  return syntaxes.find(({ pattern }) => pattern.test(word)) || null;
}

/**
 * Returns whether the numbers in a place name are in their ranges.
 * @param {string} word
 * @param {PlaceSyntax} syntax the syntax that the place matches
 */
function isInRange(word, { pattern, maxima }) {
  const placeNumbers = /** @type {RegExpExecArray} */ (pattern.exec(word)).slice(1).map(Number);
  return placeNumbers.every((number, index) => number <= maxima[index]);
}

/** @type {(word: string, names: string[]) => BenchLineError} */
const unknownPlaceError = (word, names) => ({ number: NOT_A_COMMAND, message: say.noPlaceMessage(word, findSimilarWords(word, names)) });
/** @type {(word: string) => BenchLineError} */
const noSuchPlaceError = (word) => ({ number: BAD_NUMBER, message: say.noSuchPlaceMessage(word) });

/**
 * Returns the error in the words after `poke`; null if there is none.
 * @param {string} word the place
 * @param {string} value
 */
function findPokeError(word, value) {
  const syntax = findPlaceSyntax(word, PLACE_SYNTAXES);
  if (!syntax) return unknownPlaceError(word, POKE_PLACE_NAMES);
  return isInRange(word, syntax) ? findRangeError(value, rangeTo(syntax.maxValue)) : noSuchPlaceError(word);
}

/**
 * Returns the error in the words after `trace`; null if there is none.
 * @param {string} count the number of cycles, as a numeral
 * @param {string[]} places
 */
function findTraceError(count, places) {
  const syntaxes = [...PLACE_SYNTAXES, ...TRACE_ONLY_SYNTAXES];
  const unknownWord = places.slice(0, MAX_PLACES).find((word) => !findPlaceSyntax(word, syntaxes));
  if (unknownWord !== undefined) return unknownPlaceError(unknownWord, TRACE_PLACE_NAMES);
  if (places.length > MAX_PLACES) return { number: NOT_A_COMMAND, message: say.tooManyPlacesMessage(MAX_PLACES) };
  const wrongWord = places.find((word) => !isInRange(word, /** @type {PlaceSyntax} */ (findPlaceSyntax(word, syntaxes))));
  return wrongWord === undefined ? findRangeError(count, [1, MAX_CYCLES]) : noSuchPlaceError(wrongWord);
}

/**
 * Finds the error in a line that is already split into words. Returns null if there is none.
 * @param {string[]} words
 * @returns {BenchLineError | null}
 */
function findWordError([first, ...words]) {
  if (first === undefined) return null;
  if (!ANSWER_FORMATS.has(first)) {
    return { number: NOT_A_COMMAND, message: say.unknownCommandMessage(first, findSimilarWords(first, ANSWER_FORMATS.keys())) };
  }
  const syntaxError = { number: NOT_A_COMMAND, message: say.lineSyntax(first) };
  if (first === "trace") return words.length === 0 ? syntaxError : findTraceError(words[0], words.slice(1));
  if (first === "poke") return words.length === 2 ? findPokeError(words[0], words[1]) : syntaxError;
  const ranges = NUMBER_RANGES[first] || [];
  if (words.length !== ranges.length) return syntaxError;
  const errors = words.map((word, index) => findRangeError(word, ranges[index]));
  return errors.find((error) => error !== null) || null;
}

/**
 * Returns a line's first character that the bench never accepts; "" if there is none.
 * @param {string} line
 */
export function findInvalidCharacter(line) {
  return (INVALID_CHARACTER.exec(line) || [""])[0];
}

/**
 * Returns the syntax error in a line; null if the syntax is correct. The bench can still reject the line, for example because the board
 * lacks a place.
 * @param {string} line without a line feed
 * @returns {BenchLineError | null}
 */
export function findLineError(line) {
  if (line.length > MAX_LINE_LENGTH) return { number: LINE_TOO_LONG, message: say.tooLongMessage(MAX_LINE_LENGTH, line.length) };
  const character = findInvalidCharacter(line);
  if (character !== "") return { number: NOT_ASCII, message: say.invalidCharacter(character) };
  return findWordError(line.split(/[ \t]+/).filter((word) => word !== ""));
}
