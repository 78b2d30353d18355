// Measures a signal line at a moment: how long the line keeps its value, and the period of a one-bit line.

import { formatCycles } from "../time/cycles.js";
import { CYCLE_US } from "../time/mcs4_time.js";
import { isDrawnAsBoxes } from "./wave_lines.js";
import * as say from "../../words/waves.js";

/**
 * @typedef {import("./wave_recording.js").Waves} Waves
 *
 * A measurement: the line keeps its value from the moment `from` to the moment `to`. `isComplete` is true if the line changes at both
 * moments, and false if one of them is the start or end of the recording. `period` is the number of cycles from the edge at `from` to the
 * next edge in the same direction; 0 if the recording does not contain both edges.
 * @typedef {{ from: number, to: number, isComplete: boolean, period: number }} Measurement
 */

/** The number of significant digits of a frequency. */
const SIGNIFICANT_DIGITS = 4;

/**
 * Measures a signal line at a moment.
 * @param {Waves} waves
 * @param {number} line
 * @param {number} moment
 * @returns {Measurement}
 */
export function measureAt(waves, line, moment) {
  const startEdge = waves.changeBefore(line, moment + 1);
  const endEdge = waves.changeAfter(line, moment);
  const nextEdge = endEdge === undefined || isDrawnAsBoxes(waves.lines[line]) ? undefined : waves.changeAfter(line, endEdge);
  const [from, to] = [startEdge === undefined ? waves.from : startEdge, endEdge === undefined ? waves.cycles : endEdge];
  return { from, to, isComplete: startEdge !== undefined && endEdge !== undefined,
    period: startEdge === undefined || nextEdge === undefined ? 0 : nextEdge - startEdge };
}

/**
 * Returns the frequency for a period, as text.
 * @param {number} period the period in cycles
 */
export function frequencyText(period) {
  const hertz = (1e6 / CYCLE_US) / period;
  if (hertz < 1000) return say.inHertz(hertz.toPrecision(SIGNIFICANT_DIGITS));
  return say.inKilohertz((hertz / 1000).toPrecision(SIGNIFICANT_DIGITS));
}

/**
 * Returns the text of a measurement.
 * @param {string} value the value of the line as text
 * @param {Measurement} measurement
 */
export function describeMeasurement(value, { from, to, isComplete, period }) {
  const valueWords = say.valueDuration(value, isComplete, formatCycles(to - from));
  return period === 0 ? valueWords : say.withPeriod(valueWords, formatCycles(period), frequencyText(period));
}
