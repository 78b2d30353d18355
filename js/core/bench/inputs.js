// Splits lines into inputs, finds the offsets at which inputs end, and assigns answers to inputs. An input is a command or query, with the
// text that follows it.

import { ANSWER_FORMATS } from "./answer_table.js";
import { LAST_ADDRESS, parseNumber } from "./numbers.js";

/** The maximum line length in characters; the bench rejects longer lines. */
export const MAX_LINE_LENGTH = 255;
/** The error numbers of the bench for a line that is too long, and for a line with a character that INVALID_CHARACTER matches. */
export const LINE_TOO_LONG = 12;
export const NOT_ASCII = 14;
/** Matches a character that the bench never accepts: any character other than a tab or a printable ASCII character. */
export const INVALID_CHARACTER = /[^\t -~]/u;
/** The maximum number of places in a `trace` line. */
export const MAX_PLACES = 16;
/** Matches a line that consists of one word, and captures the word. */
const ONE_WORD_LINE = /^[ \t]*([a-z]+)[ \t]*$/;

/**
 * A command or query: its line, the words of the line, the first word (`kind`, "" for a line that is too long), and the lines of the text
 * after it.
 * @typedef {{ line: string, words: string[], kind: string, text: string[] }} Input
 */

/**
 * Removes a carriage return at the end of a line.
 * @param {string} rawLine
 */
export function stripCarriageReturn(rawLine) {
  return rawLine.endsWith("\r") ? rawLine.slice(0, -1) : rawLine;
}

/**
 * Returns whether text follows a line, such as a program after `asm`. The text ends at a line that consists of a dot.
 * @param {string} line
 */
export function opensText(line) {
  const match = line.length <= MAX_LINE_LENGTH ? ONE_WORD_LINE.exec(line) : null;
  const format = match && ANSWER_FORMATS.get(match[1]);
  return Boolean(format && format.opensText);
}

/**
 * Returns whether a line is the query `seq`. Callers append this query to mark the end of the previous answers.
 * @param {string} line
 */
export function isSeqQuery(line) {
  return /^[ \t]*seq[ \t]*$/.test(line);
}

/** The pattern of the answer to `seq`. */
export const SEQ_ANSWER = /^seq \d+$/;

/**
 * Splits lines into inputs, and skips blank lines. Returns each input with the number of its first line, which counts from 1.
 * @param {string} lines
 */
export function readNumberedInputs(lines) {
  /** @type {{ input: Input, lineNumber: number }[]} */
  const inputs = [];
  /** @type {Input | null} */
  let openInput = null;
  lines.replace(/\n$/, "").split("\n").forEach((rawLine, index) => {
    const line = stripCarriageReturn(rawLine);
    if (openInput) {
      if (line === ".") openInput = null;
      else openInput.text.push(line);
      return;
    }
    const words = line.split(/[ \t]+/).filter((word) => word !== "");
    if (words.length === 0 && line.length <= MAX_LINE_LENGTH) return;
    /** @type {Input} */
    const input = { line, words, kind: line.length > MAX_LINE_LENGTH ? "" : words[0], text: [] };
    inputs.push({ input, lineNumber: index + 1 });
    if (opensText(line)) openInput = input;
  });
  return inputs;
}

/**
 * Splits lines into inputs, and skips blank lines.
 * @param {string} lines
 * @returns {Input[]}
 */
export function readInputs(lines) {
  return readNumberedInputs(lines).map(({ input }) => input);
}

/**
 * Returns the first offset, at least `minLength` characters after `from`, at which an input ends; the length of `lines` if there is none.
 * @param {string} lines
 * @param {number} from the offset of the first input
 * @param {number} minLength the minimum distance from `from`, in characters
 */
export function findInputEnd(lines, from, minLength) {
  let offset = from;
  let isInText = false;
  while (offset < lines.length && (isInText || offset - from < minLength)) {
    const lineFeed = lines.indexOf("\n", offset);
    const end = lineFeed < 0 ? lines.length : lineFeed;
    const line = stripCarriageReturn(lines.slice(offset, end));
    isInText = isInText ? line !== "." : opensText(line);
    offset = Math.min(end + 1, lines.length);
  }
  return offset;
}

/**
 * Returns the address after the last byte of a listing line.
 * @param {string} answer
 */
function addressAfterLine(answer) {
  return parseInt(answer.slice(0, 3), 16) + (answer[7] === " " ? 1 : 2);
}

/**
 * Returns whether a line belongs to the same listing as the previous line. Addresses rise within a listing.
 * @param {string} previous
 * @param {string} answer
 */
function continuesListing(previous, answer) {
  return addressAfterLine(previous) <= LAST_ADDRESS && answer.slice(0, 3) > previous.slice(0, 3);
}

/**
 * Returns the maximum number of lines in the answer to an input.
 * @param {Input} input
 * @param {string} first the first line of the answer
 * @param {string} count the COUNT column of the answer table
 */
export function maxAnswerLines(input, first, count) {
  if (count === "all") return Infinity;
  if (count === "list") return parseNumber(input.words[2]);
  const words = first.split(" ");
  return count.split("+").reduce((sum, position) => sum + Number(words[Number(position) - 1]), 1);
}

/**
 * Returns the number of lines in the answer to an input.
 * @param {Input} input
 * @param {string[]} answers
 * @param {number} from the index of the answer's first line
 */
export function answerLength(input, answers, from) {
  const format = ANSWER_FORMATS.get(input.kind);
  if (!format || !format.continuation || !format.first.test(answers[from])) return 1;
  const max = maxAnswerLines(input, answers[from], format.count);
  let index = from + 1;
  while (index < answers.length && index - from < max && format.continuation.test(answers[index])) {
    if (format.count === "list" && !continuesListing(answers[index - 1], answers[index])) break;
    index++;
  }
  return index - from;
}

/**
 * Returns the answer lines of each input, in input order; an empty list for an input without an answer.
 * @param {Input[]} inputs
 * @param {string[]} answers
 */
export function matchAnswers(inputs, answers) {
  let from = 0;
  return inputs.map((input) => {
    if (from >= answers.length) return [];
    const count = answerLength(input, answers, from);
    from += count;
    return answers.slice(from - count, from);
  });
}

/**
 * Joins lines into a string in which each line ends with a line feed.
 * @param {string[]} lines
 */
export function joinLines(lines) {
  return lines.map((line) => `${line}\n`).join("");
}
