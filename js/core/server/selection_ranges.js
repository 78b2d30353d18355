// Finds the ranges for an editor command that expands the selection step by step. The first range is the word. The next ranges are larger
// ranges in its line, the line, the folding ranges around the line, and the whole text.

import { wordAt } from "../text/assembly.js";
import { findFolds } from "./folding_ranges.js";

/**
 * @typedef {import("../text/folding.js").FoldPatterns} FoldPatterns
 * @typedef {import("./lsp_protocol.js").Position} Position
 * @typedef {import("./lsp_protocol.js").Range} Range
 * @typedef {{ range: Range, parent?: SelectionRange }} SelectionRange
 */

/**
 * Returns whether the outer range contains the inner range and is larger.
 * @param {Range} outer
 * @param {Range} inner
 */
function properlyContains(outer, inner) {
  const isBefore = (/** @type {Position} */ one, /** @type {Position} */ other) => (
    one.line < other.line || (one.line === other.line && one.character <= other.character));
  const isSame = isBefore(inner.start, outer.start) && isBefore(outer.end, inner.end);
  return isBefore(outer.start, inner.start) && isBefore(inner.end, outer.end) && !isSame;
}

/**
 * Returns the folding ranges that contain a line, and the range of the whole text, smallest first.
 * @param {string[]} lines
 * @param {number} line the line number from 0
 * @param {FoldPatterns} patterns
 * @returns {Range[]}
 */
function findEnclosingRanges(lines, line, patterns) {
  const folds = findFolds(lines, patterns).filter(({ startLine, endLine }) => startLine <= line && line <= endLine);
  const ranges = [...folds, { startLine: 0, endLine: lines.length - 1 }];
  return ranges.sort((one, other) => one.endLine - one.startLine - other.endLine + other.startLine).map(({ startLine, endLine }) => (
    { start: { line: startLine, character: 0 }, end: { line: endLine, character: lines[endLine].length } }));
}

/**
 * Returns the smallest selection range around a position. Each selection range links to the next larger one (`parent`).
 * @param {string[]} lines
 * @param {Position} position
 * @param {[number, number][]} columnRanges additional ranges in the line, as columns: for a program, the operands or the statement
 * @param {FoldPatterns} patterns
 * @returns {SelectionRange}
 */
export function selectionRangeAt(lines, { line, character }, columnRanges, patterns) {
  const text = lines[line];
  const word = wordAt(text, character);
  const lineRanges = [...(word ? [[word.from, word.to]] : []), ...columnRanges,
    [text.length - text.trimStart().length, text.trimEnd().length], [0, text.length]];
  const containingRanges = lineRanges.filter(([from, to]) => from < to && from <= character && character <= to)
    .sort((one, other) => one[1] - one[0] - other[1] + other[0])
    .map(([from, to]) => ({ start: { line, character: from }, end: { line, character: to } }));
  /** @type {Range[]} */
  const nestedRanges = [];
  for (const range of [...containingRanges, ...findEnclosingRanges(lines, line, patterns)]) {
    if (nestedRanges.length === 0 || properlyContains(range, nestedRanges[nestedRanges.length - 1])) nestedRanges.push(range);
  }
  const [outermost, ...inner] = nestedRanges.reverse();
  /** @type {SelectionRange} */
  let selection = { range: outermost };
  for (const range of inner) selection = { range, parent: selection };
  return selection;
}
