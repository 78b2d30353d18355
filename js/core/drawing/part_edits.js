// Creates text edits that add parts to a board text, remove parts, or change their values. The edits keep the comments. New parts have the
// style of the existing parts.

import { splitTomlWords } from "../text/toml_words.js";
import { PART_KEYS } from "../bench/board_form.js";

/**
 * @typedef {import("./board_draft.js").BoardDraft} BoardDraft
 * @typedef {import("../bench/board_form.js").Kind} Kind
 * @typedef {import("./text_edits.js").TextEdit} TextEdit
 * @typedef {import("../text/board_reader.js").Entry} Entry
 * @typedef {import("../text/board_reader.js").Value} Value
 * @typedef {import("../text/toml_words.js").TomlWord} TomlWord
 * @typedef {Record<string, string | number | string[]>} PartValues the values of a part, by key
 */

/** The maximum length of a line to which an array element is added, in characters. An element that does not fit starts a new line. */
const MAX_LINE_LENGTH = 100;
const INDENT = "    ";

/**
 * Formats a value as TOML.
 * @param {string | number | string[]} value
 * @returns {string}
 */
export function formatToml(value) {
  return Array.isArray(value) ? `[${value.map(formatToml).join(", ")}]` : JSON.stringify(value);
}

/**
 * Returns the `key = value` lines of a new part.
 * @param {Kind} kind
 * @param {PartValues} values
 */
function formatValueLines(kind, values) {
  return PART_KEYS[kind].map((key) => `${key} = ${formatToml(values[key])}`);
}

/**
 * Returns whether a line exists and is blank.
 * @param {string | undefined} line
 */
function isBlank(line) {
  return line !== undefined && line.trim() === "";
}

/**
 * Returns whether the text has at least two tables, and no blank lines between its tables.
 * @param {BoardDraft} draft
 */
function isCompact({ entries, lines }) {
  const laterTables = entries.filter(({ end }) => !end).slice(1);
  return laterTables.length > 0 && laterTables.every(({ line }) => !isBlank(lines[line - 2]));
}

/**
 * Returns the edits that add a part after the last part of its kind. If there is no such part, the new part is at the end of the text.
 * @param {BoardDraft} draft
 * @param {Kind} kind
 * @param {PartValues} values
 * @returns {TextEdit[]}
 */
export function addPart(draft, kind, values) {
  const array = draft.keys.find(({ name, value }) => name === kind && Array.isArray(value.inner));
  if (array) return appendElement(draft, array.value, `{ ${formatValueLines(kind, values).join(", ")} }`);
  const block = [kind === "keys" ? "[keys]" : `[[${kind}]]`, ...formatValueLines(kind, values)].join("\n");
  const gap = isCompact(draft) ? "\n" : "\n\n";
  const lastPart = draft.partsOfKind(kind).pop();
  if (!lastPart) return [appendTable(draft, gap, block)];
  const line = draft.findLastLine(lastPart);
  const insertionOffset = draft.offsetAt(line, draft.lines[line - 1].length);
  return [{ from: insertionOffset, to: insertionOffset, insert: gap + block }];
}

/**
 * Returns the edit that adds a table at the end of the text.
 * @param {BoardDraft} draft
 * @param {string} gap the line feeds between the last line of the text and the table
 * @param {string} block the lines of the table
 * @returns {TextEdit}
 */
function appendTable({ text, lines }, gap, block) {
  const endOffset = text.length;
  if (text.trim() === "") return { from: 0, to: endOffset, insert: `${block}\n` };
  if (!text.endsWith("\n")) return { from: endOffset, to: endOffset, insert: `${gap}${block}\n` };
  const endsWithBlankLine = isBlank(lines[lines.length - 2]);
  return { from: endOffset, to: endOffset, insert: `${endsWithBlankLine ? "" : gap.slice(1)}${block}\n` };
}

/**
 * Returns the TOML tokens before (`before`) and after (`next`) a range, with their offsets; null for a missing token. Line ends do not
 * count as tokens.
 * @param {BoardDraft} draft
 * @param {number} from the offset of the start of the range
 * @param {number} to the offset of its end
 */
function findTokensAround(draft, from, to) {
  const tokens = splitTomlWords(draft.lines).filter(({ kind }) => kind !== "end");
  /** @type {(word: TomlWord | undefined) => { text: string, from: number, to: number } | null} */
  const addOffsets = (word) => (word
    ? { text: word.text, from: draft.offsetAt(word.line, word.from), to: draft.offsetAt(word.line, word.to) } : null);
  const next = tokens.find((word) => draft.offsetAt(word.line, word.from) >= to);
  const before = tokens.filter((word) => draft.offsetAt(word.line, word.to) <= from).pop();
  return { before: addOffsets(before), next: addOffsets(next) };
}

/**
 * Returns the edits that add an element at the end of an array. The element gets a new line if the earlier elements are on separate lines,
 * or if the last line would become longer than MAX_LINE_LENGTH.
 * @param {BoardDraft} draft
 * @param {Value} array
 * @param {string} element the element as TOML
 * @returns {TextEdit[]}
 */
export function appendElement(draft, array, element) {
  const elements = /** @type {Value[]} */ (array.inner);
  const lastElement = elements[elements.length - 1];
  if (!lastElement) return [{ from: draft.startOffset(array) + 1, to: draft.startOffset(array) + 1, insert: element }];
  const elementEnd = draft.endOffset(lastElement);
  const line = draft.lines[lastElement.end.line - 1];
  const previousElement = elements[elements.length - 2];
  const hasOwnLine = previousElement ? previousElement.end.line < lastElement.line : lastElement.line > array.line;
  const fitsOnLine = line.length + element.length + 2 <= MAX_LINE_LENGTH;
  if (!hasOwnLine && fitsOnLine) return [{ from: elementEnd, to: elementEnd, insert: `, ${element}` }];
  const { next } = findTokensAround(draft, elementEnd, elementEnd);
  const hasComma = next !== null && next.text === ",";
  const indent = lastElement.line > array.line ? (/^[ \t]*/.exec(line) || [""])[0] : INDENT;
  // The new element goes before the closing bracket if the bracket is on the line of the last element; otherwise after that line.
  const isBeforeBracket = next && next.text === "]" && array.end.line === lastElement.end.line;
  const end = isBeforeBracket ? elementEnd : draft.offsetAt(lastElement.end.line, line.length);
  const comma = { from: elementEnd, to: elementEnd, insert: "," };
  return [{ from: end, to: end, insert: `\n${indent}${element}${hasComma ? "," : ""}` }, ...(hasComma ? [] : [comma])];
}

/**
 * Returns the edit that deletes complete lines. If two blank lines would then be adjacent, the edit also deletes one of them.
 * @param {BoardDraft} draft
 * @param {number} first the number of the first line, from 1
 * @param {number} last the number of the last line, from 1
 * @returns {TextEdit}
 */
export function removeLines({ lines, lineOffsets, text }, first, last) {
  const isBlankBefore = first === 1 || isBlank(lines[first - 2]);
  const next = lines[last];
  const isLast = next === undefined || (last === lines.length - 1 && next === "");
  const firstDeleted = isLast && first > 1 && isBlankBefore ? first - 1 : first;
  if (next === undefined) return { from: Math.max(0, lineOffsets[firstDeleted - 1] - 1), to: text.length, insert: "" };
  const lastDeleted = !isLast && isBlankBefore && isBlank(next) ? last + 1 : last;
  return { from: lineOffsets[firstDeleted - 1], to: lineOffsets[lastDeleted], insert: "" };
}

/**
 * Returns the edit that deletes a range within a line, and adjacent blanks. The edit deletes the complete line if the line contains nothing
 * else.
 * @param {BoardDraft} draft
 * @param {number} from the offset of the start of the range
 * @param {number} to the offset of its end
 * @returns {TextEdit}
 */
function removeRange({ text }, from, to) {
  const [blanksBefore] = /** @type {RegExpExecArray} */ (/[ \t]*$/.exec(text.slice(0, from)));
  const [blanksAfter] = /** @type {RegExpExecArray} */ (/^[ \t]*/.exec(text.slice(to)));
  const isFirst = from === blanksBefore.length || text[from - blanksBefore.length - 1] === "\n";
  const isLast = to + blanksAfter.length === text.length || text[to + blanksAfter.length] === "\n";
  if (isFirst && isLast) return { from: from - blanksBefore.length, to: Math.min(text.length, to + blanksAfter.length + 1), insert: "" };
  return isLast ? { from: from - blanksBefore.length, to, insert: "" } : { from, to: to + blanksAfter.length, insert: "" };
}

/**
 * Returns the edits that delete an array element and its comma.
 * @param {BoardDraft} draft
 * @param {Value} array
 * @param {number} index
 * @returns {TextEdit[]}
 */
export function removeElement(draft, array, index) {
  const element = /** @type {Value[]} */ (array.inner)[index];
  const [from, to] = [draft.startOffset(element), draft.endOffset(element)];
  const { before, next } = findTokensAround(draft, from, to);
  if (next && next.text === ",") return [removeRange(draft, from, next.to)];
  if (!before || before.text !== ",") return [{ from, to, insert: "" }];
  if (!draft.text.slice(before.to, from).includes("\n")) return [{ from: before.from, to, insert: "" }];
  return [removeRange(draft, from, to), { from: before.from, to: before.to, insert: "" }];
}

/**
 * Returns the edits that delete a part.
 * @param {BoardDraft} draft
 * @param {Kind} kind
 * @param {number} index the index among the parts of its kind
 * @returns {TextEdit[]}
 */
export function removePart(draft, kind, index) {
  const entry = draft.requirePart(kind, index);
  if (!entry.end) return [removeLines(draft, entry.line, draft.findLastLine(entry))];
  const key = draft.keys.find(({ name }) => name === kind);
  if (!key) throw new Error(`the text has no ${kind}`);
  if (kind === "keys") return [removeLines(draft, key.line, key.value.end.line)];
  return removeElement(draft, key.value, index);
}

/**
 * Returns the edit that sets a value in a part. Throws if the part lacks the key.
 * @param {BoardDraft} draft
 * @param {Entry} entry
 * @param {string} name the key of the value
 * @param {string | number} value the new value
 * @returns {TextEdit}
 */
export function setValue(draft, entry, name, value) {
  return replaceValue(draft, draft.requireKey(entry, name).value, value);
}

/**
 * Returns the edit that replaces a value in the text.
 * @param {BoardDraft} draft
 * @param {Value} oldValue
 * @param {string | number} value the new value
 * @returns {TextEdit}
 */
export function replaceValue(draft, oldValue, value) {
  return { from: draft.startOffset(oldValue), to: draft.endOffset(oldValue), insert: formatToml(value) };
}
