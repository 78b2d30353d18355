// Defines the answer format of each input line, and whether text follows the line. Reads the table tools/lib/answers.txt, whose header
// explains the columns.

import table from "#answer-table";

/**
 * The format of the answer to an input line. `opensText`: true if text follows the input line. `isQuery`: true if the line does not change
 * the session. `first`: the pattern of the first answer line. `continuation`: the pattern of the other answer lines, null if there are
 * none. `count`: the number of these other lines, in the notation of the table.
 * @typedef {{ opensText: boolean, isQuery: boolean, first: RegExp, continuation: RegExp | null, count: string }} AnswerFormat
 */

/** The number of columns in a row of the table. */
const COLUMN_COUNT = 5;
/** The start of the pattern for the answer to a command. */
const COMMAND_ANSWER_PREFIX = "^ok ";

/**
 * Parses the answer table; returns the answer formats by the first word of the input line.
 * @param {string} text the table
 * @returns {Map<string, AnswerFormat>}
 */
export function parseAnswerTable(text) {
  const rows = text.split("\n").filter((line) => !line.startsWith("#")).map((line) => line.split("\t"));
  return new Map(rows.filter((row) => row.length === COLUMN_COUNT).map(([word, opens, first, continuation, count]) => [word, {
    opensText: opens === "text", isQuery: !first.startsWith(COMMAND_ANSWER_PREFIX), first: new RegExp(first),
    continuation: continuation === "-" ? null : new RegExp(continuation), count,
  }]));
}

/** The answer formats, by the first word of the input line. */
export const ANSWER_FORMATS = parseAnswerTable(table);

/**
 * Returns whether a word is the first word of a query. A query does not change the session.
 * @param {string} word
 */
export function isQuery(word) {
  const format = ANSWER_FORMATS.get(word);
  return format !== undefined && format.isQuery;
}

/** The pattern of a listing line, a line in the answer to `list`. */
const LISTING_LINE = /** @type {RegExp} */ (/** @type {AnswerFormat} */ (ANSWER_FORMATS.get("list")).continuation);

/**
 * Returns whether an answer is a listing line.
 * @param {string} answer
 */
export function isListingLine(answer) {
  return LISTING_LINE.test(answer);
}
