// Formats a program: labels start at the left margin, and instructions, operands and comments are aligned in columns. The module changes
// only blanks and tabs, and only in lines with a valid form. The assembled bytes therefore stay the same.

import { MAX_LINE_LENGTH } from "../bench/inputs.js";
import { MAX_STORED_LENGTH, MAX_SENT_LENGTH, sentText, trimBlanks } from "./sendable_text.js";
import * as say from "../../words/text.js";

/**
 * The format of the gaps between words. If `insertSpaces` is true, gaps contain only blanks; otherwise, they contain tabs where possible.
 * Tab stops are at multiples of `tabSize`.
 * @typedef {{ tabSize: number, insertSpaces: boolean }} Layout
 *
 * The parts of a line: a name that the line defines with `=` and its value, or a label and a statement (`head` and `operands`). A missing
 * part is "". `indent` is the current column of the comment.
 * @typedef {{ name: string, value: string, label: string, head: string, operands: string, comment: string, indent: number }} SplitLine
 *
 * A change in a line: `text` replaces the columns `from` to `to` of line `line`. Lines and columns count from 0.
 * @typedef {{ line: number, from: number, to: number, text: string }} Change
 */

/** The columns at which statements, operands and comments start. */
const STATEMENT_COLUMN = 8;
const OPERAND_COLUMN = 12;
const COMMENT_COLUMN = 24;
/** A comment after long code starts at the next multiple of COMMENT_STEP. */
const COMMENT_STEP = 8;
/**
 * An indented comment without code is aligned with statements if it is indented by less than MIN_COMMENT_INDENT; otherwise with comments.
 */
const MIN_COMMENT_INDENT = 16;
/** Matches a definition of a name with `=`, and a label with a statement. */
const DEFINITION = /^([A-Za-z_]\w*)[ \t]*=[ \t]*(\w+)$/;
const CODE = /^(?:([A-Za-z_]\w*)[ \t]*:[ \t]*)?(?:([A-Za-z]\w*)(?:[ \t]+(\w+(?:[ \t]*,[ \t]*\w+)*))?)?$/;

/**
 * Returns the column at which a piece of text ends.
 * @param {string} text
 * @param {number} column the column at which the text starts
 * @param {Layout} layout
 */
function findColumnAfter(text, column, { tabSize }) {
  let endColumn = column;
  for (const letter of text) endColumn = letter === "\t" ? (Math.floor(endColumn / tabSize) + 1) * tabSize : endColumn + 1;
  return endColumn;
}

/**
 * Returns the blanks and tabs that fill the gap between two columns.
 * @param {number} from
 * @param {number} to
 * @param {Layout} layout
 */
function formatGap(from, to, { tabSize, insertSpaces }) {
  if (insertSpaces || to - from < 2) return " ".repeat(to - from);
  const lastTabStop = Math.floor(to / tabSize);
  const tabCount = Math.max(0, lastTabStop - Math.floor(from / tabSize));
  return "\t".repeat(tabCount) + " ".repeat(to - (tabCount > 0 ? lastTabStop * tabSize : from));
}

/**
 * Splits a line into its parts. Returns null if the form of the line is invalid.
 * @param {string} line
 * @param {(word: string) => boolean} canStartStatement returns whether a statement can start with a word, which is given in upper case
 * @param {Layout} layout
 * @returns {SplitLine | null}
 */
function splitLine(line, canStartStatement, layout) {
  const mark = line.indexOf(";");
  const code = trimBlanks(mark < 0 ? line : line.slice(0, mark));
  const emptyParts = { name: "", value: "", label: "", head: "", operands: "" };
  const comment = mark < 0 ? "" : trimBlanks(line.slice(mark));
  const commentParts = { comment, indent: mark < 0 ? 0 : findColumnAfter(line.slice(0, mark), 0, layout) };
  const definition = DEFINITION.exec(code);
  if (definition) return { ...emptyParts, ...commentParts, name: definition[1], value: definition[2] };
  const match = CODE.exec(code);
  if (!match || (match[2] && !canStartStatement(match[2].toUpperCase()))) return null;
  const operands = (match[3] || "").split(",").map(trimBlanks).join(", ");
  return { ...emptyParts, ...commentParts, label: match[1] || "", head: match[2] || "", operands };
}

/**
 * Returns the name width of each line. The name width of a definition is the length of the longest name in its block of consecutive
 * definitions. The name width of any other line is 0.
 * @param {(SplitLine | null)[]} lines
 */
function findNameWidths(lines) {
  const widths = lines.map((line) => (line ? line.name.length : 0));
  for (let index = 1; index < widths.length; index++) if (widths[index] > 0) widths[index] = Math.max(widths[index], widths[index - 1]);
  for (let index = widths.length - 2; index >= 0; index--) {
    if (widths[index] > 0) widths[index] = Math.max(widths[index], widths[index + 1]);
  }
  return widths;
}

/**
 * Returns the formatted code of a line.
 * @param {SplitLine} line
 * @param {number} width the name width of the line
 * @param {Layout} layout
 */
function formatCode({ name, value, label, head, operands }, width, layout) {
  if (name) return `${name}${formatGap(name.length, width + 1, layout)}= ${value}`;
  let code = label && `${label}:`;
  const addWord = (/** @type {string} */ word, /** @type {number} */ column) => {
    const end = findColumnAfter(code, 0, layout);
    code += formatGap(end, end < column ? column : end + (code ? 1 : 0), layout) + word;
  };
  if (head) addWord(head, STATEMENT_COLUMN);
  if (operands) addWord(operands, OPERAND_COLUMN);
  return code;
}

/**
 * Returns the column at which a comment starts in the formatted line.
 * @param {number} end the column at which the code before the comment ends; 0 if there is no code
 * @param {number} indent the current column of the comment
 * @param {number} previousColumn the column of the comment in the previous line; 0 if that line has no aligned comment
 */
function chooseCommentColumn(end, indent, previousColumn) {
  if (end > 0) return Math.max(COMMENT_COLUMN, Math.ceil((end + 2) / COMMENT_STEP) * COMMENT_STEP);
  if (indent === 0) return 0;
  return indent < MIN_COMMENT_INDENT ? STATEMENT_COLUMN : previousColumn || COMMENT_COLUMN;
}

/**
 * Returns the formatted lines of a program.
 * @param {string[]} lines
 * @param {(word: string) => boolean} canStartStatement returns whether a statement can start with a word, which is given in upper case
 * @param {Layout} layout
 * @returns {string[]}
 */
export function formatProgramLines(lines, canStartStatement, layout) {
  const parts = lines.map((line) => splitLine(line, canStartStatement, layout));
  const widths = findNameWidths(parts);
  let lastCommentColumn = 0;
  return parts.map((line, index) => {
    const code = line ? formatCode(line, widths[index], layout) : "";
    const end = findColumnAfter(code, 0, layout);
    const column = line && line.comment ? chooseCommentColumn(end, line.indent, lastCommentColumn) : 0;
    lastCommentColumn = column >= COMMENT_COLUMN ? column : 0;
    // A line stays unchanged if its formatted code is too long to send.
    if (!line || code.length > MAX_LINE_LENGTH) return lines[index];
    return line.comment ? code + formatGap(end, column, layout) + line.comment : code;
  });
}

/**
 * Returns an error message if the formatted text is too long; otherwise "".
 * @param {string[]} lines the formatted lines
 */
export function findLengthError(lines) {
  const text = lines.join("\n");
  const sentLength = sentText(text, ";").length;
  if (sentLength > MAX_SENT_LENGTH) return say.formattedTooLong(MAX_SENT_LENGTH.toLocaleString("en"), sentLength.toLocaleString("en"));
  if (text.length <= MAX_STORED_LENGTH) return "";
  return say.formattedTooLong(MAX_STORED_LENGTH.toLocaleString("en"), text.length.toLocaleString("en"));
}

/**
 * Returns the changes between two versions of a program, one per changed line. A change omits the common prefix and suffix of the old and
 * the new line.
 * @param {string[]} oldLines
 * @param {string[]} newLines as many lines as in `oldLines`
 * @returns {Change[]}
 */
export function findLineChanges(oldLines, newLines) {
  return oldLines.flatMap((oldLine, line) => {
    const text = newLines[line];
    if (oldLine === text) return [];
    const minLength = Math.min(oldLine.length, text.length);
    let [from, suffix] = [0, 0];
    while (from < minLength && oldLine[from] === text[from]) from += 1;
    while (suffix < minLength - from && oldLine[oldLine.length - 1 - suffix] === text[text.length - 1 - suffix]) suffix += 1;
    return [{ line, from, to: oldLine.length - suffix, text: text.slice(from, text.length - suffix) }];
  });
}
