// Reads the state of a lamp: at one instant, or as perceived over time.

import { MIN_ON_DUTY } from "./brightness.js";
import { isLit } from "./digit_patterns.js";

/**
 * @typedef {import("./brightness.js").Brightness} Brightness
 *
 * The functions that read the state of a lamp. `isLit` returns whether the lamp is on at one instant, from a string with one mark per lamp.
 * `duty` returns the perceived duty cycle, from 0 to 1. `isOn` returns whether the lamp is perceived as on.
 * @typedef {{ isLit: (marks: string) => boolean, duty: (brightness: Brightness) => number,
 *   isOn: (brightness: Brightness) => boolean }} LampReader
 */

/**
 * Returns the functions that read a board lamp.
 * @param {number} lamp the lamp number
 * @returns {LampReader}
 */
export function lampReader(lamp) {
  return { isLit: (marks) => isLit(marks, lamp), duty: ({ lampDuties }) => lampDuties[lamp], isOn: ({ isOn }) => isOn[lamp] };
}

/**
 * Returns the functions that read a lamp of a multiplexed group. Only one row is on at a time, so the duty cycle is multiplied by `rows`;
 * the maximum is 1.
 * @param {import("./face.js").Group} group
 * @param {number} groupIndex the index of the group in the list of multiplexed groups that are not displays
 * @param {number} lampIndex the lamp's index in the group, row by row
 * @returns {LampReader & { column: number, row: number }} `column` and `row` are the board lamps that select the lamp
 */
export function scannedLampReader({ first, rows, columns, firstRowLamp }, groupIndex, lampIndex) {
  const [column, row] = [first + (lampIndex % columns), firstRowLamp + Math.floor(lampIndex / columns)];
  /** @type {LampReader["duty"]} */
  const duty = ({ scannedGroups }) => Math.min(1, scannedGroups[groupIndex][lampIndex] * rows);
  return {
    column, row, duty,
    isLit: (marks) => isLit(marks, column) && isLit(marks, row),
    isOn: (brightness) => duty(brightness) >= MIN_ON_DUTY,
  };
}
