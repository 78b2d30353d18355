// Chooses the lines of a recording from the arguments of a command.

import { createBoardLines, createValueLine } from "./wave_lines.js";
import * as say from "../../words/waves.js";

/**
 * @typedef {import("../bench/answers.js").Board} Board
 * @typedef {import("./wave_lines.js").WaveLine} WaveLine
 *
 * A choice of lines. `lines` are all lines of a board, followed by the requested values. `chosenIndices` are the indices of the requested
 * lines in `lines`, in the order of the request.
 * @typedef {{ lines: WaveLine[], chosenIndices: number[] }} LineChoice
 */

/** The error for a name that matches no line. */
export class UnknownLineError extends Error {}

/** @type {(line: WaveLine) => boolean} returns whether a line is a one-bit line of the board */
const isOneBitLine = ({ kind }) => kind === "level" || kind === "key" || kind === "test";
/** @type {(line: WaveLine) => boolean} returns whether the user can request a line by its name or group */
const canBeRequested = (line) => isOneBitLine(line) || line.kind === "pc" || line.kind === "label";

/**
 * Returns the names of the lines that a user can request.
 * @param {Board} board
 * @param {string} text the board text, for the names
 * @param {boolean} hasLabels
 */
export function listRequestableNames(board, text, hasLabels) {
  return createBoardLines(board, text, hasLabels).filter(canBeRequested).map(({ name }) => name);
}

/**
 * Returns the name of a lamp or key by its number, such as `lamp0` or `key2.3`; "" for any other line.
 * @param {WaveLine} line
 * @param {number} number the lamp number
 */
function formatNumberedName({ group, places }, number) {
  if (group === "lamps") return `lamp${number}`;
  return group === "keys" ? `key${places[0]}` : "";
}

/**
 * Returns the indices of the lines that a word requests: a single line, or all lines of a group; an empty list if there are none.
 * @param {WaveLine[]} lines
 * @param {string} word
 */
function findLineIndices(lines, word) {
  const firstLampIndex = lines.findIndex(({ group }) => group === "lamps");
  const namedIndex = lines.findIndex((line, index) => line.name === word || formatNumberedName(line, index - firstLampIndex) === word);
  if (namedIndex >= 0) return [namedIndex];
  return lines.flatMap((line, index) => (canBeRequested(line) && line.group === word ? [index] : []));
}

/**
 * Returns the lines that words request; without words, all one-bit lines of the board. Throws UnknownLineError if a word matches no line,
 * or if two words request the same line.
 * @param {Board} board
 * @param {string} text the board text, for the names
 * @param {boolean} hasLabels
 * @param {string[]} words
 * @returns {LineChoice}
 */
export function chooseLines(board, text, hasLabels, words) {
  const lines = createBoardLines(board, text, hasLabels);
  const allIndices = lines.map((_, index) => index);
  if (words.length === 0) return { lines, chosenIndices: allIndices.filter((index) => isOneBitLine(lines[index])) };
  /** @type {Set<number>} */
  const chosenIndices = new Set();
  for (const word of words) {
    let indices = findLineIndices(lines, word);
    const value = indices.length === 0 ? createValueLine(word, board) : null;
    if (value) {
      const knownIndex = lines.findIndex(({ name }) => name === value.name);
      indices = [knownIndex < 0 ? lines.push(value) - 1 : knownIndex];
    }
    if (indices.length === 0) throw new UnknownLineError(word === "label" ? say.LABEL_NEEDS_PROGRAM : say.noSuchLineMessage(word));
    for (const number of indices) {
      if (chosenIndices.has(number)) throw new UnknownLineError(say.lineRepeated(lines[number].name));
      chosenIndices.add(number);
    }
  }
  return { lines, chosenIndices: [...chosenIndices] };
}
