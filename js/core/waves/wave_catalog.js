// Lists the lines that the user can choose for a recording, and chooses the lines that are initially visible.

import { isDecoder } from "./decoders.js";
import { normalizeName } from "./trigger.js";
import { REGISTER_NAMES, listNibbleNames, isDrawnAsBoxes, createBoardLines } from "./wave_lines.js";
import * as say from "../../words/waves.js";

/**
 * @typedef {import("../bench/answers.js").Board} Board
 * @typedef {import("./wave_lines.js").WaveLine} WaveLine
 * @typedef {import("./wave_recording.js").Waves} Waves
 */

/** The maximum number of one-bit lines that are initially visible. Decoders, the program counter and the label do not count. */
const MAX_INITIAL_LINES = 16;
/** The maximum number of RAM nibbles in a list. */
const MAX_NIBBLES = 64;

/**
 * Returns all lines that can be recorded on a board.
 * @param {Board} board
 * @param {string} text the board text, for the names
 */
export function listRecordableLines(board, text) {
  return createBoardLines(board, text, true, [...REGISTER_NAMES, ...listNibbleNames(board)]);
}

/**
 * Returns the lines that are initially visible: the one-bit lines and decoders that change, the program counter and the label. If no
 * one-bit line changes, the first one-bit lines are visible.
 * @param {Waves} waves
 */
export function chooseInitialLines(waves) {
  const lineIndices = waves.lines.map((_, line) => line);
  const oneBitLines = lineIndices.filter((line) => !isDrawnAsBoxes(waves.lines[line]) && waves.lines[line].kind !== "value");
  const changingLines = oneBitLines.filter((line) => waves.changesOf(line).length > 0);
  const counterAndLabel = lineIndices.filter((line) => waves.lines[line].kind === "pc" || waves.lines[line].kind === "label");
  const decoders = lineIndices.filter((line) => isDecoder(waves.lines[line]) && waves.changesOf(line).length > 0);
  return [...(changingLines.length > 0 ? changingLines : oneBitLines).slice(0, MAX_INITIAL_LINES), ...decoders, ...counterAndLabel];
}

/**
 * Returns the names of the chosen values. The bench records values, such as registers, only on request.
 * @param {WaveLine[]} lines
 * @param {Set<string>} chosenNames
 */
export function listChosenValueNames(lines, chosenNames) {
  return lines.filter(({ name, kind }) => kind === "value" && chosenNames.has(name)).map(({ name }) => name);
}

/**
 * Returns the lines whose name is the text, ignoring case, dots and blanks. If there are none, returns the lines with the text in their
 * name, title or group title.
 * @param {WaveLine[]} lines
 * @param {string} text
 */
function findMatchingLines(lines, text) {
  const searchedName = normalizeName(text);
  const exactMatches = lines.filter(({ name }) => normalizeName(name) === searchedName);
  if (exactMatches.length > 0) return exactMatches;
  return lines.filter(({ name, title, group }) => normalizeName(`${name} ${title} ${groupTitle(group)}`).includes(searchedName));
}

/**
 * Returns the lines that match a search text. The list contains all chosen RAM nibbles, but at most MAX_NIBBLES others, because RAM has
 * many nibbles.
 * @param {WaveLine[]} allLines
 * @param {string} text
 * @param {Set<string>} chosenNames
 * @returns {{ lines: WaveLine[], note: string }} `note` says that lines are not listed, or that no line matches; "" if neither is the case
 */
export function searchLines(allLines, text, chosenNames) {
  const isEmptySearch = text.trim() === "";
  const isNibble = (/** @type {WaveLine} */ { group }) => group.startsWith(say.RAM_GROUP);
  let remainingNibbles = isEmptySearch ? 0 : MAX_NIBBLES;
  const matchingLines = findMatchingLines(allLines, text);
  if (matchingLines.length === 0 && !isEmptySearch) return { lines: matchingLines, note: say.noNameMessage(text.trim()) };
  const lines = matchingLines.filter((line) => !isNibble(line) || chosenNames.has(line.name) || remainingNibbles-- > 0);
  const hiddenCount = matchingLines.length - lines.length;
  if (hiddenCount === 0) return { lines, note: "" };
  return { lines, note: say.notListedMessage(hiddenCount) };
}

/**
 * Returns the title of a group of lines.
 * @param {string} group
 */
export function groupTitle(group) {
  return say.TITLES[group] || say.titleOfChip(group);
}
