// The syntax of the front-panel lines in a board text: their first words, the words after them, and the error messages. The syntax comes
// from the table `tools/lib/face.txt`; its header explains the columns.

import table from "#face-table";

/**
 * A kind of front-panel line. `head`: the form of the text between the first word and the colon (`N`, `N to N`, `place`, `line`, or `-` for
 * none). `countsWords`: true if the words count towards the maximum number of words. `isFatal`: true if names or displays depend on the
 * line. `size`: the meaning of the numbers after the colon (`lamps`, `digits` or `rows`), `-` if the line has no size. `pattern`: the
 * pattern of the text after the colon, null for any text. `headError` and `wordsError`: the error messages for a wrong head and for wrong
 * words.
 * @typedef {{ head: string, countsWords: boolean, isFatal: boolean, size: string, pattern: RegExp | null, headError: string,
 *   wordsError: string }} Kind
 */

/** The rows of the table, split into columns. */
const allRows = table.split("\n").filter((line) => line !== "" && !line.startsWith("#")).map((line) => line.split("\t"));

/**
 * Returns the table rows that start with the given word, without that word.
 * @param {string} word
 */
const tableRows = (word) => allRows.filter((row) => row[0] === word).map((row) => row.slice(1));

/**
 * Converts a table row to a pair: the first word of a kind of line, and this kind.
 * @param {string[]} columns
 * @returns {[string, Kind]}
 */
function parseKind([word, head, counts, severity, size, pattern, headError, wordsError]) {
  return [word, {
    head, countsWords: counts === "list", isFatal: severity === "refused", size, pattern: pattern === "-" ? null : new RegExp(pattern),
    headError,
    wordsError: wordsError === "-" ? headError : wordsError,
  }];
}

/** @type {Map<string, Kind>} the kinds of lines, by first word */
export const LINE_KINDS = new Map(tableRows("kind").map(parseKind));
/** The colour names that a front panel can use. */
export const COLOURS = new Set(tableRows("colour").map(([word]) => word));
/** @type {Map<string, string>} the characters that a seven-segment digit can show, by the on and off marks of segments a to g */
export const SEGMENT_CHARACTERS = new Map(tableRows("digit").map(([marks, word]) => [marks, word === "_" ? " " : word]));
/** The limits in the table, by name. */
const LIMITS = new Map(tableRows("limit").map(([name, number]) => [name, Number(number)]));
/** The patterns of the text between the first word and the colon, by name. */
const HEADS = new Map(tableRows("head").map(([name, expression]) => [name, new RegExp(expression)]));
/** The first words of front-panel lines that have a synonym, by synonym. */
const SYNONYMS = new Map(tableRows("other").map(([synonym, word]) => [synonym, word]));
/** The error messages, by name. */
const MESSAGES = new Map(tableRows("say").map(([name, words]) => [name, words]));
/** Matches a front-panel line: the first word, the number or place, the number after `to`, and the text after the colon. */
const FACE_LINE = /^[ \t]*#[ \t]*([A-Za-z]+)(?:[ \t]+([^ \t:]+)(?:[ \t]+to[ \t]+([^ \t:]+))?)?[ \t]*:(.*)$/i;

/** @type {(name: string) => number} returns the value of a limit in the table; 0 for an unknown name */
export const findLimit = (name) => LIMITS.get(name) || 0;

/**
 * Returns an error message with the values inserted.
 * @param {string} name the name of the message
 * @param {...(string | number)} values values for `{1}`, `{2}` ..
 */
export function formatMessage(name, ...values) {
  const message = MESSAGES.get(name) || name;
  return values.reduce((/** @type {string} */ words, value, index) => words.replace(`{${index + 1}}`, () => String(value)), message);
}

/** @type {(text: string) => string[]} splits text at blanks and tabs */
export const splitWords = (text) => text.split(/[ \t]+/).filter(Boolean);

/** @type {(word: string | undefined) => boolean} returns whether a word is a decimal number of at most four digits */
export const isNumber = (word) => matchesHead("N", word);

/**
 * Returns whether a word before the colon matches a head pattern.
 * @param {string} name the name of the pattern
 * @param {string | undefined} word
 */
function matchesHead(name, word) {
  const expression = HEADS.get(name);
  return expression !== undefined && word !== undefined && expression.test(word.toLowerCase());
}

/**
 * Returns whether the text between the first word and the colon is correct.
 * @param {Kind} kind the kind of the line
 * @param {string | undefined} first the word after the first word of the line
 * @param {string | undefined} last the word after `to`
 */
export function isHeadValid({ head }, first, last) {
  if (head === "-") return first === undefined;
  if (head === "N to N") return isNumber(first) && (last === undefined || isNumber(last));
  return matchesHead(head, first) && last === undefined;
}

/**
 * Returns whether the words after the colon match the pattern of a kind of line.
 * @param {Kind} kind
 * @param {string[]} words
 */
export function areWordsValid({ pattern: expression }, words) {
  return expression === null || expression.test(words.join(" "));
}

/**
 * Parses the size of a group. Returns its rows and columns, and the number of the board lamp for its first row (-1 for a group without
 * multiplexing). Returns null if the words are not a size.
 * @param {Kind} kind
 * @param {string[]} words
 */
export function parseSize(kind, words) {
  if (!areWordsValid(kind, words)) return null;
  const scannedIndex = words.indexOf("scanned");
  const rowLamp = scannedIndex < 0 ? "" : words[words.length - 1];
  if (rowLamp && !isNumber(rowLamp)) return null;
  const [first, second] = words.slice(0, scannedIndex < 0 ? words.length : scannedIndex).filter(isNumber).map(Number);
  const size = { rows: 1, columns: first, firstRowLamp: rowLamp ? Number(rowLamp) : -1 };
  if (kind.size === "rows") Object.assign(size, { rows: first, columns: second });
  if (kind.size === "digits") Object.assign(size, { rows: first, columns: (second || 4) + (words.includes("points") ? 1 : 0) });
  return size.rows * size.columns > 0 ? size : null;
}

/**
 * Parses a front-panel line: its first word, the words before the colon, and the text after the colon. Returns null for any other line.
 * @param {string} text
 */
export function parseFaceLine(text) {
  const match = FACE_LINE.exec(text);
  if (!match) return null;
  const word = match[1].toLowerCase().replace(/s$/, "");
  const name = SYNONYMS.get(word) || word;
  const kind = LINE_KINDS.get(name);
  const [, , first, last, words] = match;
  return kind ? { name, kind, first, last, words } : null;
}
