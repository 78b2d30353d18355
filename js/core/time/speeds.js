// The speeds at which a session can run: real time, a fraction of real time, one instruction per second, or full speed.

import * as say from "../../words/time.js";

/**
 * A speed. `slowdown` is the duration of a cycle in the session, divided by its duration in real time. `isByInstruction` is true for one
 * instruction per second, and `isFull` for full speed.
 * @typedef {{ id: string, label: string, slowdown: number, isByInstruction: boolean, isFull: boolean }} Speed
 */

/**
 * Creates a speed; the default is real time.
 * @param {string} id
 * @param {string} label
 * @param {Partial<Speed>} changes the members that differ from real time
 * @returns {Speed}
 */
function createSpeed(id, label, changes = {}) {
  return { id, label, slowdown: 1, isByInstruction: false, isFull: false, ...changes };
}

export const REAL_TIME_SPEED = createSpeed("real", say.REAL_TIME);

/** The speeds in the order of the menu. */
export const SPEEDS = [
  REAL_TIME_SPEED,
  createSpeed("tenth", "1/10", { slowdown: 10 }),
  createSpeed("hundredth", "1/100", { slowdown: 100 }),
  createSpeed("thousandth", "1/1,000", { slowdown: 1000 }),
  createSpeed("instruction", say.ONE_A_SECOND, { isByInstruction: true }),
  createSpeed("full", say.FULL_SPEED, { isFull: true }),
];

/**
 * Returns the speed with an id; real time for an unknown id.
 * @param {string} id
 */
export function findSpeed(id) {
  return SPEEDS.find((speed) => speed.id === id) || REAL_TIME_SPEED;
}

/**
 * Returns whether a speed is low enough for the user to follow the marker at the current source line.
 * @param {Speed} speed
 */
export function canUserFollowLine({ slowdown, isByInstruction }) {
  return isByInstruction || slowdown >= 100;
}

/**
 * Returns whether a click on a key toggles the key, as it does while the session is paused. At such a low speed, a click would otherwise be
 * too short for the program to detect.
 * @param {Speed} speed
 */
export function togglesKeys({ slowdown, isByInstruction }) {
  return isByInstruction || slowdown >= 1000;
}
