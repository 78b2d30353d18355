// Finds front-panel lines and the offsets of their words in a board text, and creates text edits of such lines.

import { parseFaceLine } from "../board/face_words.js";
import { removeLines } from "./part_edits.js";

/**
 * @typedef {import("./board_draft.js").BoardDraft} BoardDraft
 * @typedef {import("./text_edits.js").TextEdit} TextEdit
 * @typedef {{ text: string, from: number, to: number }} FaceWord a word, and the offsets of its start and its end
 *
 * A front-panel line, such as `# colour 0 to 3: green`. `line`: the line number in the text, from 1. `kind`: the first word. `first`: the
 * number, port or port line before the colon; null for none. `last`: the number after `to`; null for none. `words`: the words after the
 * colon. `end`: the offset at which the line ends. All offsets count from the start of the text.
 * @typedef {{ line: number, kind: string, first: FaceWord | null, last: FaceWord | null, words: FaceWord[], end: number }} FaceLine
 */

/** Matches the comment sign and the first word of a line. */
const LINE_START = /^[ \t]*#[ \t]*[A-Za-z]+[ \t]*/;

/**
 * Returns the words of the text with their offsets.
 * @param {string} text
 * @param {number} from the offset at which the text starts
 * @returns {FaceWord[]}
 */
function splitWithOffsets(text, from) {
  return [...text.matchAll(/[^ \t\r]+/g)].map((match) => {
    const start = from + (match.index || 0);
    return { text: match[0], from: start, to: start + match[0].length };
  });
}

/**
 * Returns the front-panel lines of a board text.
 * @param {BoardDraft} draft
 * @returns {FaceLine[]}
 */
export function faceLines(draft) {
  return draft.lines.flatMap((text, index) => {
    const parsedLine = parseFaceLine(text.replace(/\r$/, ""));
    if (!parsedLine) return [];
    const lineStart = draft.lineOffsets[index];
    const [prefix] = LINE_START.exec(text) || [""];
    const colon = text.indexOf(":", prefix.length);
    const [first = null, , last = null] = splitWithOffsets(text.slice(prefix.length, colon), lineStart + prefix.length);
    const words = splitWithOffsets(text.slice(colon + 1), lineStart + colon + 1);
    return [{ line: index + 1, kind: parsedLine.name, first, last, words, end: lineStart + text.trimEnd().length }];
  });
}

/**
 * Returns the first number before the colon; NaN if there is no number.
 * @param {FaceLine} line
 */
export function firstNumber({ first }) {
  return first ? Number(first.text) : NaN;
}

/**
 * Returns the edits that add a front-panel line after the last line of its kind. If there is no such line, the new line follows the last
 * front-panel line. If there is no front-panel line, the new line follows the comment at the top of the text.
 * @param {BoardDraft} draft
 * @param {string} kind the first word of the line
 * @param {string} text the complete line
 * @returns {TextEdit[]}
 */
export function addFaceLine(draft, kind, text) {
  const lines = faceLines(draft);
  const precedingLine = lines.filter((line) => line.kind === kind).pop() || lines.pop();
  if (precedingLine) return [{ from: precedingLine.end, to: precedingLine.end, insert: `\n${text}` }];
  const firstCodeIndex = draft.lines.findIndex((line) => !line.startsWith("#"));
  const insertionOffset = firstCodeIndex < 0 ? draft.text.length : draft.lineOffsets[firstCodeIndex];
  const gap = firstCodeIndex === 0 && draft.text.trim() !== "" && draft.lines[0].trim() !== "" ? "\n" : "";
  return [{ from: insertionOffset, to: insertionOffset, insert: `${firstCodeIndex < 0 ? "\n" : ""}${text}\n${gap}` }];
}

/**
 * Returns the edit that deletes a front-panel line.
 * @param {BoardDraft} draft
 * @param {FaceLine} line
 */
export function removeFaceLine(draft, { line }) {
  return removeLines(draft, line, line);
}

/**
 * Returns the edits that replace a word of a front-panel line; no edits if the word is unchanged.
 * @param {FaceWord} word
 * @param {string} text the new word
 * @returns {TextEdit[]}
 */
export function setWord(word, text) {
  return word.text === text ? [] : [{ from: word.from, to: word.to, insert: text }];
}

/**
 * Returns the edits that delete words after the colon of a line, and the blanks before them.
 * @param {FaceLine} line
 * @param {(index: number) => boolean} isDeleted returns whether to delete the word at an index
 * @returns {TextEdit[]}
 */
export function removeWords({ words, first, last }, isDeleted) {
  const lastNumberWord = last || first;
  return words.flatMap(({ from, to }, index) => {
    if (!isDeleted(index)) return [];
    const previousEnd = words[index - 1] ? words[index - 1].to : from;
    // If no earlier word remains, delete the blanks after this word instead, so that the blank after the colon is preserved.
    const next = words[index + 1];
    const isFirstWord = words.slice(0, index).every((_, earlierIndex) => isDeleted(earlierIndex));
    if (isFirstWord) return [{ from, to: next ? next.from : to, insert: "" }];
    return lastNumberWord ? [{ from: previousEnd, to, insert: "" }] : [];
  });
}
