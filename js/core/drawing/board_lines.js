// Lists the connections between the signal lines and the inputs of a board, and the connections that are allowed. The bench decides which
// connections are allowed; a unit test compares this module with the bench for each pair of a line and an input. Only the front panel
// defines a buzzer. Like a lamp, a buzzer is connected to one signal line.

import { BITS_PER_CHIP, signalLines } from "../bench/board_form.js";
import { indices } from "../bench/numbers.js";
import { findBuzzer } from "../board/face_board.js";
import * as say from "../../words/drawing.js";

/**
 * @typedef {import("../bench/answers.js").Board & { buzzer?: string }} Board a board, with the signal line of its buzzer ("" for none)
 * @typedef {import("../bench/board_form.js").BoardLine} BoardLine
 *
 * The name of an input to which a signal line can be connected: `lamp 3` or `buzzer 0`; `clock 0` or `data 0` for chain 0; `row 1` or
 * `column 2` for the keys.
 * @typedef {string} Target
 */

/** The input name of the buzzer. A board has at most one buzzer. */
export const BUZZER = "buzzer 0";

/**
 * Returns a board with the signal line of the buzzer that its front panel defines.
 * @param {import("../bench/answers.js").Board} board
 * @param {import("../board/face.js").Face} face
 * @returns {Board}
 */
export function boardWithBuzzer(board, face) {
  const buzzer = findBuzzer(board, face);
  return { ...board, buzzer: buzzer ? buzzer.place : "" };
}

/**
 * Returns the signal line to which each input is connected.
 * @param {Board} board
 * @returns {Map<Target, string>}
 */
export function mapInputsToLines({ chains, matrix, lamps, buzzer }) {
  /** @type {Map<Target, string>} */
  const lines = new Map();
  chains.forEach(({ clock, data }, chain) => lines.set(`clock ${chain}`, clock).set(`data ${chain}`, data));
  if (matrix) {
    for (const row of indices(matrix.rows)) lines.set(`row ${row}`, `chain${matrix.chain}.${matrix.first + row}`);
    matrix.columns.forEach((line, column) => lines.set(`column ${column}`, line));
  }
  lamps.forEach((line, lamp) => lines.set(`lamp ${lamp}`, line));
  if (buzzer) lines.set(BUZZER, buzzer);
  return lines;
}

/**
 * Splits an input name into its kind and number.
 * @param {Target} target
 * @returns {[string, number]}
 */
export function splitTarget(target) {
  const [kind, number] = target.split(" ");
  return [kind, Number(number)];
}

/**
 * Returns the name of an input for messages.
 * @param {Target} target
 */
export function targetName(target) {
  const [kind, number] = splitTarget(target);
  if (kind === "lamp") return target;
  if (target === BUZZER) return say.THE_BUZZER;
  return kind === "clock" || kind === "data" ? say.ofChain(kind, number) : say.ofKeys(target);
}

/**
 * Parses the name of a chain bit, such as `chain0.5`. Returns the numbers of the chain and of the bit.
 * @param {string} line
 */
export function parseChainBit(line) {
  const [chain, bit] = line.replace("chain", "").split(".").map(Number);
  return { chain, bit };
}

/**
 * Returns whether a line can be connected to an input.
 * @param {Board} board
 * @param {BoardLine} line
 * @param {Target} target
 */
export function canConnect({ chains, matrix }, { name, kind, isInput }, target) {
  const [targetKind, number] = splitTarget(target);
  if (targetKind === "column") return isInput;
  if (targetKind === "lamp" || target === BUZZER) return !isInput;
  if (targetKind !== "row") return kind !== "bit" && !isInput;
  if (kind !== "bit" || !matrix) return false;
  const { chain, bit } = parseChainBit(name);
  const first = bit - number;
  return first >= 0 && first + matrix.rows <= BITS_PER_CHIP * chains[chain].chips;
}

/**
 * Returns the inputs to which a line can be connected, without the inputs to which it is already connected. Returns an empty list if the
 * board does not have the line.
 * @param {Board} board
 * @param {string} name the name of the line
 * @returns {Target[]}
 */
export function listPossibleTargets(board, name) {
  const line = signalLines(board).find((boardLine) => boardLine.name === name);
  if (!line) return [];
  const targets = [...mapInputsToLines(board)].filter(([target, currentLine]) => currentLine !== name && canConnect(board, line, target));
  return targets.map(([target]) => target);
}

/**
 * Returns the names of the lines that can be connected to an input, including the line that is connected now.
 * @param {Board} board
 * @param {Target} target
 */
export function listPossibleSources(board, target) {
  return signalLines(board).filter((line) => canConnect(board, line, target)).map(({ name }) => name);
}

/**
 * Returns the signal lines that are connected to no input.
 * @param {Board} board
 */
export function listFreeLines(board) {
  const usedLines = new Set(mapInputsToLines(board).values());
  return signalLines(board).filter(({ name }) => !usedLines.has(name));
}
