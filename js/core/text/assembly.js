// Splits a program line into words, for syntax colours, help and error messages. Only the bench decides whether the line is valid.

/**
 * A word and its column range in the line: `from` is its first column, and `to` is the column after its last character.
 * @typedef {{ text: string, from: number, to: number }} Word
 *
 * The parts of a line:
 * - `label`: the label, or the name that the line defines with `=` (`defines` is then true);
 * - `head`: the first word of the statement; `operands`: its operands, or the value of a definition;
 * - `comment`: the index at which the comment starts; the line length if there is no comment.
 * @typedef {{ label: Word | null, defines: boolean, head: Word | null, operands: Word[], comment: number }} Parts
 *
 * The kind of a word, for its syntax colour. A word of the kind `unknown` fits none of the other kinds.
 * @typedef {"comment" | "label" | "instruction" | "directive" | "register" | "number" | "name" | "unknown"} Kind
 * @typedef {Word & { kind: Kind }} Token
 */

export const DIRECTIVES = ["ORG", "DB"];
/** Patterns that match a register, a register pair, a number, and a name. */
export const REGISTER = /^[Rr](\d|1[0-5])$/;
export const PAIR = /^[Pp][0-7]$/;
export const NUMBER = /^(\d+|0x[0-9A-Fa-f]+)$/;
export const NAME = /^[A-Za-z_][A-Za-z0-9_]*$/;
export const MAX_NAME_LENGTH = 16;

/**
 * Returns the text between two indices of a line as a word, without surrounding blanks; null if the text is blank.
 * @param {string} line
 * @param {number} from
 * @param {number} to
 * @returns {Word | null}
 */
function extractWord(line, from, to) {
  const text = line.slice(from, to);
  const trimmed = text.trim();
  if (trimmed === "") return null;
  const start = from + text.indexOf(trimmed);
  return { text: trimmed, from: start, to: start + trimmed.length };
}

/**
 * Splits a part of a line at its commas. Returns the operands. A missing operand is an empty word at its position. A blank part has no
 * operands.
 * @param {string} line
 * @param {number} from
 * @param {number} to
 */
function splitOperands(line, from, to) {
  if (line.slice(from, to).trim() === "") return [];
  const words = [];
  for (let index = from; index <= to;) {
    const comma = line.indexOf(",", index);
    const end = comma < 0 || comma > to ? to : comma;
    words.push(extractWord(line, index, end) || { text: "", from: end, to: end });
    index = end + 1;
  }
  return words;
}

/** @type {Map<string, Parts>} the parts of the lines that were split before, by line; each edit splits the whole text again */
const partsCache = new Map();
const MAX_CACHED_LINES = 8192;
const MAX_CACHED_LENGTH = 255;

/**
 * Returns the parts of a line, from the cache if possible.
 * @param {string} line
 * @returns {Readonly<Parts>}
 */
export function splitStatement(line) {
  if (line.length > MAX_CACHED_LENGTH) return splitLine(line);
  const cachedParts = partsCache.get(line);
  if (cachedParts) return cachedParts;
  if (partsCache.size >= MAX_CACHED_LINES) partsCache.clear();
  const parts = splitLine(line);
  partsCache.set(line, parts);
  return parts;
}

/**
 * Splits a line into its parts, without the cache.
 * @param {string} line
 * @returns {Parts}
 */
function splitLine(line) {
  const mark = line.indexOf(";");
  const comment = mark < 0 ? line.length : mark;
  const colon = /^[^:=,]*?:/.exec(line.slice(0, comment));
  const label = colon ? extractWord(line, 0, colon[0].length - 1) : null;
  const from = colon ? colon[0].length : 0;
  const equalsIndex = line.slice(0, comment).indexOf("=", from);
  if (equalsIndex >= 0) {
    const value = extractWord(line, equalsIndex + 1, comment);
    return { label: label || extractWord(line, from, equalsIndex), defines: true, head: null, operands: value ? [value] : [], comment };
  }
  const match = /^\s*([^\s,]+)/.exec(line.slice(from, comment));
  if (!match) return { label, defines: false, head: null, operands: [], comment };
  const end = from + match[0].length;
  const head = { text: match[1], from: end - match[1].length, to: end };
  return { label, defines: false, head, operands: splitOperands(line, end, comment), comment };
}

/**
 * Returns the kind of an operand. The spelling determines the kind.
 * @param {string} text
 * @returns {Kind}
 */
export function classifyOperand(text) {
  if (REGISTER.test(text) || PAIR.test(text)) return "register";
  if (NUMBER.test(text)) return "number";
  return NAME.test(text) ? "name" : "unknown";
}

/**
 * Returns the words of a line with their kinds, in order.
 * @param {string} line
 * @param {(word: string) => boolean} isInstruction returns whether an upper-case word is an instruction
 * @returns {Token[]}
 */
export function tokenizeLine(line, isInstruction) {
  const { label, head, operands, comment } = splitStatement(line);
  /** @type {Token[]} */
  const tokens = [];
  if (label) tokens.push({ ...label, kind: "label" });
  if (head) {
    const word = head.text.toUpperCase();
    const otherKind = DIRECTIVES.includes(word) ? "directive" : "unknown";
    tokens.push({ ...head, kind: isInstruction(word) ? "instruction" : otherKind });
  }
  for (const word of operands.filter(({ text }) => text !== "")) tokens.push({ ...word, kind: classifyOperand(word.text) });
  if (comment < line.length) tokens.push({ text: line.slice(comment), from: comment, to: line.length, kind: "comment" });
  return tokens;
}

/**
 * Returns the names that a program defines. The value for a name is the number of the first line that defines the name (from 1).
 * @param {string[]} lines
 * @returns {Map<string, number>}
 */
export function findDefinedNames(lines) {
  const names = new Map();
  lines.forEach((line, index) => {
    const { label } = splitStatement(line);
    if (label && NAME.test(label.text) && !names.has(label.text)) names.set(label.text, index + 1);
  });
  return names;
}

/**
 * Returns the word of letters, digits and underscores that contains or touches a column; null if there is none.
 * @param {string} line
 * @param {number} column
 * @returns {Word | null}
 */
export function wordAt(line, column) {
  const matchBefore = /\w*$/.exec(line.slice(0, column));
  const matchAfter = /^\w*/.exec(line.slice(column));
  const from = column - (matchBefore ? matchBefore[0].length : 0);
  const to = column + (matchAfter ? matchAfter[0].length : 0);
  return from === to ? null : { text: line.slice(from, to), from, to };
}
