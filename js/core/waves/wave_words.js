// Composes the descriptions of recordings. Also parses the number of cycles to record.

import { formatQuantity, parseCount } from "../bench/numbers.js";
import { formatCycleTime, formatCycles } from "../time/cycles.js";
import * as say from "../../words/waves.js";

/**
 * @typedef {import("./wave_recording.js").Instruction} Instruction
 * @typedef {import("./wave_recording.js").Waves} Waves
 * @typedef {"hex" | "decimal" | "binary"} NumberBase
 */

/** The maximum length of a recording in cycles. */
export const MAX_CYCLES = 10000000;

/**
 * Returns a value as text, in a number base.
 * @param {number} value
 * @param {number} width the width of the value in bits
 * @param {NumberBase} base
 */
export function valueText(value, width, base) {
  if (width === 1 || base === "decimal") return String(value);
  if (base === "binary") return value.toString(2).padStart(width, "0");
  return value.toString(16).toUpperCase().padStart(Math.ceil(width / 4), "0");
}

/**
 * Formats a number with a comma between groups of three digits.
 * @param {number} number
 */
export function formatNumber(number) {
  return String(number).replace(/\B(?=(\d{3})+$)/g, ",");
}

/**
 * Formats a number of cycles.
 * @param {number} cycles
 */
export function cyclesText(cycles) {
  return formatQuantity(cycles, "cycle");
}

/**
 * Describes the cycles between the two cursors.
 * @param {number} cycles
 */
export function describeDistance(cycles) {
  return say.distanceBetweenCursors(formatCycles(cycles));
}

/**
 * Describes the instruction at a moment.
 * @param {Instruction} instruction
 */
export function instructionText({ listingLine, line, source, isSecond, isEnd }) {
  if (isSecond) return say.SECOND_CYCLE;
  const text = listingLine.replace(/ +/g, " ");
  const sourceText = line > 0 ? say.sourceLineSuffix(line, source) : "";
  return `${isEnd ? say.NEXT_PREFIX : ""}${text}${sourceText}`;
}

/**
 * Describes a cursor: its moment, and the instruction at that moment.
 * @param {string} name
 * @param {number} moment
 * @param {Waves} waves
 */
export function describeCursor(name, moment, waves) {
  return say.cursorAt(name, formatNumber(moment), formatCycleTime(moment), instructionText(waves.instructionAt(moment)));
}

/**
 * Describes a cursor for screen readers, including the value of the marked line.
 * @param {number} moment
 * @param {Waves} waves
 * @param {number} line the index of the marked line; -1 for none
 */
export function describeForScreenReader(moment, waves, line) {
  const markedLineText = line < 0 ? "" : say.valueIs(waves.lines[line].name, waves.valueAt(line, moment));
  return say.cursorDescription(markedLineText, formatNumber(moment), instructionText(waves.instructionAt(moment)));
}

/**
 * Describes the length of a recording.
 * @param {Pick<Waves, "length" | "isStuck">} waves
 * @param {number} wantedCycles the requested number of cycles
 * @param {boolean} isOfPast true for a recording of the past
 */
export function describeRecording({ length, isStuck }, wantedCycles, isOfPast) {
  if (length === 0 && isOfPast) return say.NOTHING_HAS_RUN;
  const recordedText = say.recordedSpan(cyclesText(length), formatCycleTime(length));
  if (isStuck) return say.codeFollows(recordedText);
  return length < wantedCycles ? say.noFurtherBackMessage(recordedText) : recordedText;
}

/**
 * Parses a number of cycles. Returns 0 if the text is not a number from 1 to MAX_CYCLES.
 * @param {string} text
 */
export function parseCycleCount(text) {
  return parseCount(text, MAX_CYCLES);
}
