// Converts a program or board text to the form that is sent to the bench, and finds lines that cannot be sent. Comments and indentation are
// not sent. Comments can therefore contain any character, and they do not count towards the maximum length. In code, a non-ASCII character
// is an error.

import { LINE_TOO_LONG, MAX_LINE_LENGTH, NOT_ASCII } from "../bench/inputs.js";
import * as say from "../../words/text.js";

/**
 * A range of lines: the numbers of the first and the last line, from 1.
 * @typedef {{ from: number, to: number }} LineRange
 *
 * An error in a text, such as a program or a board text. `number` is the refusal number (0 for none), `line` the line number from 1, and
 * `words` the message. `from` and `to` are the columns of the error. Each string in `quickFixTexts` fixes the error if it replaces the text
 * in these columns.
 * @typedef {{ number: number, line: number, from: number, to: number, words: string, quickFixTexts?: string[] }} TextError
 *
 * The character that starts a comment in a program (`;`) and in a board text (`#`).
 * @typedef {";" | "#"} CommentMark
 */

/** The maximum length of a text that is sent to the bench, in characters, including one line feed per line. */
export const MAX_SENT_LENGTH = 16384;
/** The maximum length of a text that the page stores, in characters, including comments and indentation. */
export const MAX_STORED_LENGTH = 65536;
/** The refusal number for a text that is too long. */
export const TEXT_TOO_LONG = 13;

/**
 * Creates an error with a range.
 * @param {number} number the refusal number
 * @param {{ line: number, from: number, to: number }} range the line number from 1, and the columns
 * @param {string} message
 * @returns {TextError}
 */
export function createErrorAt(number, { line, from, to }, message) {
  return { number, line, from, to, words: message };
}

/**
 * Returns the index at which the comment of a line starts; the length of the line if it has no comment. In a board text, a comment mark
 * inside a string does not start a comment.
 * @param {string} line
 * @param {CommentMark} mark
 */
export function findCommentStart(line, mark) {
  const first = line.indexOf(mark);
  if (first < 0 || mark === ";") return first < 0 ? line.length : first;
  const codeMatch = /^([^"'#]|"(\\.|[^"\\])*"|'[^']*')*/.exec(line);
  const end = codeMatch ? codeMatch[0].length : 0;
  return line[end] === "#" ? end : line.length;
}

/**
 * Adds a comment mark to each line. If all lines are comments, removes the comment marks instead. Returns the new lines. Blank lines stay
 * unchanged.
 * @param {string[]} lines
 * @param {CommentMark | string} mark
 */
export function toggleComments(lines, mark) {
  const areAllComments = lines.every((line) => line.trim() === "" || line.trimStart().startsWith(mark))
    && lines.some((line) => line.trim() !== "");
  if (areAllComments) return lines.map((line) => line.replace(new RegExp(`^(\\s*)${mark} ?`), "$1"));
  return lines.map((line) => (line.trim() === "" ? line : `${mark} ${line}`));
}

/**
 * Replaces each non-ASCII character in the comment of a line with a blank. Positions in the line stay the same.
 * @param {string} line
 * @param {CommentMark} mark
 */
function replaceNonAscii(line, mark) {
  if (/^[\t -~]*$/.test(line)) return line;
  const commentStart = findCommentStart(line, mark);
  return line.slice(0, commentStart) + line.slice(commentStart).replace(/[^\t -~]/g, " ");
}

/**
 * Removes the blanks and tabs at both ends of a string.
 * @param {string} text
 */
export function trimBlanks(text) {
  let [from, to] = [0, text.length];
  while (from < to && (text[from] === " " || text[from] === "\t")) from += 1;
  while (to > from && (text[to - 1] === " " || text[to - 1] === "\t")) to -= 1;
  return text.slice(from, to);
}

/**
 * Returns a line as it is sent to the bench, without its comment. Code that is only a dot gets a leading blank, because a line with only a
 * dot ends the text. A line that is only a dot stays unchanged; `findSendingErrors` reports it.
 * @param {string} line
 * @param {CommentMark} mark
 */
export function sentLine(line, mark) {
  const code = trimBlanks(line.slice(0, findCommentStart(line, mark)));
  return code === "." && line !== "." ? " ." : code;
}

/**
 * Applies a function to each line of a text, and returns the new text. Each line of the new text ends with a line feed.
 * @param {string} text
 * @param {(line: string) => string} change returns the new line
 */
function mapLines(text, change) {
  if (text === "") return "";
  const lines = text.replace(/\r\n?/g, "\n").split("\n");
  // The part after the last line feed is a line, unless it is empty.
  if (lines[lines.length - 1] === "") lines.pop();
  return lines.map((line) => `${change(line)}\n`).join("");
}

/**
 * Replaces each non-ASCII character in the comments of a text with a blank. Positions in the result are therefore valid in the original
 * text.
 * @param {string} text
 * @param {CommentMark} mark
 */
export function toAsciiComments(text, mark) {
  return mapLines(text, (line) => replaceNonAscii(line, mark));
}

/**
 * Returns a text as it is sent to the bench. A board text with a multi-line string keeps its blanks and comments, because they can be part
 * of the string.
 * @param {string} text
 * @param {CommentMark} mark
 */
export function sentText(text, mark) {
  if (mark === "#" && /"""|'''/.test(text)) return toAsciiComments(text, mark);
  return mapLines(text, (line) => sentLine(line, mark));
}

/**
 * Returns a message about an invalid character.
 * @param {string} character
 */
function describeCharacter(character) {
  if (/[\u2018\u2019\u201c\u201d\u00ab\u00bb]/.test(character)) return say.notAsciiQuote(character);
  if (character === "\u00a0") return say.NON_BREAKING_SPACE_HINT;
  if (/[\p{Cf}\p{Zs}\p{Zl}\p{Zp}\p{Cc}]/u.test(character) && character >= "\u0080") {
    const code = (character.codePointAt(0) || 0).toString(16).toUpperCase().padStart(4, "0");
    return say.invisibleCharacter(code);
  }
  if (character < " " || character === "\u007f") return say.CONTROL_CHARACTER;
  return say.notAsciiCharacter(character);
}

/**
 * Returns the error in a line that cannot be sent; null if the line can be sent.
 * @param {string} line the line, with the same columns as in the original text
 * @param {string} lineToSend the line as it is sent to the bench
 * @param {number} lineNumber
 * @returns {TextError | null}
 */
function findSendingErrorInLine(line, lineToSend, lineNumber) {
  const range = { line: lineNumber, from: 0, to: line.length };
  if (lineToSend === ".") return { number: 0, ...range, words: say.DOT_ENDS_TEXT };
  if (lineToSend.length > MAX_LINE_LENGTH) {
    const message = say.lineTooLong(MAX_LINE_LENGTH, lineToSend.length);
    return { number: LINE_TOO_LONG, ...range, from: line.indexOf(lineToSend) + MAX_LINE_LENGTH, words: message };
  }
  const invalidCharacters = /[^\t -~]+/u.exec(line);
  if (!invalidCharacters) return null;
  const { 0: characters, index: from } = invalidCharacters;
  return { number: NOT_ASCII, line: lineNumber, from, to: from + characters.length, words: describeCharacter([...characters][0]) };
}

/**
 * Returns whether a fast check shows that all lines of a text can be sent. If not, each line needs the slower check of
 * `findSendingErrorInLine`.
 * @param {string} text
 * @param {string[]} sentLines the lines as they are sent to the bench
 */
function passesFastCheck(text, sentLines) {
  return !/[^\t\n\r -~]/.test(text) && sentLines.every((line) => line.length <= MAX_LINE_LENGTH && line !== ".");
}

/**
 * Returns the errors in lines that cannot be sent. If the text is too long, the last error is at the line that exceeds the maximum.
 * @param {string} text
 * @param {CommentMark} mark
 * @returns {TextError[]}
 */
export function findSendingErrors(text, mark) {
  const textToSend = sentText(text, mark);
  const sentLines = textToSend.split("\n");
  if (textToSend.length <= MAX_SENT_LENGTH && passesFastCheck(text, sentLines)) return [];
  const lines = toAsciiComments(text, mark).split("\n");
  const errors = lines.map((line, index) => findSendingErrorInLine(line, sentLines[index], index + 1)).filter((error) => error !== null);
  if (textToSend.length > MAX_SENT_LENGTH) {
    const last = textToSend.slice(0, MAX_SENT_LENGTH).split("\n").length;
    const message = say.textTooLong(MAX_SENT_LENGTH.toLocaleString("en"), textToSend.length.toLocaleString("en"));
    errors.push({ number: TEXT_TOO_LONG, line: last, from: 0, to: lines[last - 1].length, words: message });
  }
  return /** @type {TextError[]} */ (errors);
}
