// Compares a front panel with its board. Finds the front-panel parts whose keys, lamps, lines or chips the board lacks. Returns the groups,
// names and colours of the lamps on the board.

import { sortByLine } from "./face.js";
import { LINE_KINDS, formatMessage } from "./face_words.js";
import { BITS_PER_CHIP } from "../bench/board_form.js";
import { indices } from "../bench/numbers.js";

/**
 * @typedef {import("../bench/answers.js").Board} Board
 * @typedef {import("./face.js").Face} Face
 * @typedef {import("./face.js").FaceError} FaceError
 * @typedef {import("./face.js").Group} Group
 */

/**
 * Returns whether the board has a ROM (`rom0`), RAM chip (`ram0.0`) or chain (`chain0`).
 * @param {Board} board
 * @param {string} part
 */
function hasPart(board, part) {
  const [first, second] = part.replace(/[a-z]/g, "").split(".").map(Number);
  if (part.startsWith("rom")) return board.roms.some(({ chip }) => Number(chip) === first);
  if (part.startsWith("chain")) return first < board.chains.length;
  return board.banks.some(({ bank, chips }) => Number(bank) === first && second < chips);
}

/**
 * Returns whether the board has an output line: `rom0.3`, `ram0.1.3` or `chain0.5`.
 * @param {Board} board
 * @param {string} line
 */
export function hasOutput(board, line) {
  const [place, bit] = [line.slice(0, line.lastIndexOf(".")), Number(line.slice(line.lastIndexOf(".") + 1))];
  if (!hasPart(board, place)) return false;
  const lastDigit = Number(place.slice(-1));
  if (place.startsWith("chain")) return bit < BITS_PER_CHIP * board.chains[lastDigit].chips;
  return place.startsWith("ram") || board.roms.some(({ chip, port }) => `rom${Number(chip)}` === place && port[3 - bit] !== "i");
}

/**
 * Returns the buzzer of a front panel; null if there is no buzzer, or if its output line is missing on the board.
 * @param {Board} board
 * @param {Face} face
 */
export function findBuzzer(board, { buzzer }) {
  return buzzer && hasOutput(board, buzzer.place) ? buzzer : null;
}

/**
 * Returns the printer of a front panel; null if there is no printer, or if one of its output lines is missing on the board.
 * @param {Board} board
 * @param {Face} face
 */
export function findPrinter(board, { printer }) {
  return printer && printerLines(printer).every((line) => hasOutput(board, line)) ? printer : null;
}

/**
 * Returns the highest lamp number of a group, plus 1.
 * @param {Group} group
 */
export function endOfGroup({ first, rows, columns, firstRowLamp }) {
  return firstRowLamp < 0 ? first + rows * columns : Math.max(first + columns, firstRowLamp + rows);
}

/**
 * Returns the lamp numbers of a group.
 * @param {Group} group
 */
export function lampsOfGroup({ first, rows, columns, firstRowLamp }) {
  const numbersFrom = (/** @type {number} */ start, /** @type {number} */ count) => indices(count).map((index) => start + index);
  return firstRowLamp < 0 ? numbersFrom(first, rows * columns) : [...numbersFrom(first, columns), ...numbersFrom(firstRowLamp, rows)];
}

/** @type {(group: Group) => boolean} returns whether a group is multiplexed */
export const isMultiplexed = ({ firstRowLamp }) => firstRowLamp >= 0;

/**
 * Returns the groups whose lamps are all on the board.
 * @param {Face} face
 * @param {number} count the number of lamps on the board
 */
export function fittingGroups(face, count) {
  return face.groups.filter((group) => endOfGroup(group) <= count);
}

/**
 * Returns the number of the minus lamp of a display; -1 if there is none.
 * @param {Face} face
 */
export function minusLamp({ lampNumbers }) {
  return lampNumbers.get("minus") ?? -1;
}

/**
 * Returns the numbers of the lamps that are neither in a group nor on the grid. If there is a display, the minus lamp counts as part of it.
 * @param {Face} face
 * @param {number} count the number of lamps on the board
 */
export function lampsOutsideGroups(face, count) {
  const groups = fittingGroups(face, count);
  const placedLamps = new Set([...groups.flatMap(lampsOfGroup), ...face.grid.map(({ lamp }) => lamp)]);
  if (groups.some(({ kind }) => kind === "display")) placedLamps.add(minusLamp(face));
  return indices(count).filter((lamp) => !placedLamps.has(lamp));
}

/**
 * Returns the output lines of a printer: the strobe line and four code lines.
 * @param {import("./face.js").Printer} printer
 */
export function printerLines({ strobe, port }) {
  return [strobe, ...indices(4).map((bit) => `${port}.${bit}`)];
}

/**
 * Returns an error for each front-panel part whose keys, lamps, lines or chips the board lacks, sorted by line.
 * @param {Face} face
 * @param {Board} board
 * @returns {FaceError[]}
 */
export function missingPartErrors(face, board) {
  /** @type {FaceError[]} */
  const errors = [];
  const lampCount = board.lamps.length;
  /** @type {(kind: string, line: number, messageName: string, ...values: (string | number)[]) => void} */
  const addError = (kind, line, messageName, ...values) => {
    errors.push({ line, message: formatMessage(messageName, ...values), isFatal: isFatal(kind) });
  };
  for (const { text, line, key: { row, column } } of face.keys.values()) {
    if (text === "" || (row < board.rows && column < board.columns)) continue;
    addError("row", line, board.rows ? "key not there" : "no keys", text, row, column, board.rows, board.columns);
  }
  for (const [lamp, { text, line }] of face.lamps) if (lamp >= lampCount) addError("lamp", line, "lamp not there", text, lamp, lampCount);
  for (const [line, lamp] of lastColouredLamps(face)) {
    if (lamp >= lampCount) addError("colour", line, "no lamp for colour", lamp, lampCount);
  }
  for (const { lamp, line } of face.grid) if (lamp >= lampCount) addError("grid", line, "no lamp for place", lamp, lampCount);
  for (const group of face.groups) {
    if (endOfGroup(group) > lampCount) addError(group.kind, group.line, "no lamps for group", group.kind, endOfGroup(group) - 1, lampCount);
  }
  const { buzzer } = face;
  if (buzzer && !hasOutput(board, buzzer.place)) addError("buzzer", buzzer.line, "no output line", buzzer.place);
  const { printer } = face;
  const missingLine = printer && printerLines(printer).find((line) => !hasOutput(board, line));
  if (printer && missingLine) addError("printer", printer.line, "no output line", missingLine);
  for (const [place, { line }] of face.ports) if (!hasPart(board, place)) addError("port", line, "port not there", place);
  return sortByLine(errors);
}

/**
 * Returns whether names or displays depend on lines of the given kind.
 * @param {string} kind the first word of the line
 */
function isFatal(kind) {
  const lineKind = LINE_KINDS.get(kind);
  return lineKind !== undefined && lineKind.isFatal;
}

/**
 * Returns the lamp names by lamp number; "" for an unnamed lamp.
 * @param {Face} face
 * @param {number} count the number of lamps on the board
 */
export function lampNames(face, count) {
  return indices(count).map((lamp) => (face.lamps.get(lamp) || { text: "" }).text.replace(/_/g, " "));
}

/**
 * Returns the lamp colours by lamp number; "" for a lamp without a colour.
 * @param {Face} face
 * @param {number} count the number of lamps on the board
 */
export function lampColours(face, count) {
  return indices(count).map((lamp) => (face.colours.get(lamp) || { text: "" }).text);
}

/**
 * Returns the number of the last lamp that each colour line colours, by the number of the colour line.
 * @param {Face} face
 */
function lastColouredLamps(face) {
  /** @type {Map<number, number>} */
  const lastLamps = new Map();
  for (const [lamp, { line }] of face.colours) lastLamps.set(line, Math.max(lamp, lastLamps.get(line) || 0));
  return lastLamps;
}
