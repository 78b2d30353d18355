// The inputs that a search can change: keys and TEST, by their front-panel names.

import { keyLine, pinKey } from "../board/key_place.js";

/**
 * @typedef {import("../board/key_place.js").Key} Key
 *
 * An input, which is either down or up. `downLine` and `upLine` are the bench lines that change its position; `downTestLine` and
 * `upTestLine` are the test lines for the same changes. `isDown` is true if the input is down in the start state. `isKey` is true for a key
 * of the matrix. `canBePressed` is true for such a key, and for TEST if the front panel has a button or switch for it.
 * @typedef {{ name: string, key: Key, isKey: boolean, canBePressed: boolean, downLine: string, upLine: string, downTestLine: string,
 *   upTestLine: string, isDown: boolean }} Input
 *
 * @typedef {import("../board/face.js").Face} Face
 */

/**
 * Creates an input that is up at power-on.
 * @param {string} name
 * @param {Key} key
 * @param {[string, string]} testLines the test lines that change the input to down and to up
 * @returns {Input}
 */
export function createInput(name, key, [downTestLine, upTestLine]) {
  return { name, key, isKey: key.kind === "matrix", canBePressed: true, downLine: keyLine("press", key), upLine: keyLine("release", key),
    downTestLine, upTestLine, isDown: false };
}

/**
 * Returns the named keys as inputs, in front-panel order.
 * @param {Face} face
 * @returns {Input[]}
 */
export function listKeyInputs(face) {
  return [...face.keys.values()].filter(({ text }) => text !== "").map(({ text, key }) => (
    createInput(text, key, [`press ${text}`, `release ${text}`])));
}

/**
 * Creates the input for the TEST pin, whose level is 1 at power-on. If the front panel does not describe TEST, level 0 means down.
 * @param {Face} face
 * @returns {Input}
 */
export function createTestInput({ test }) {
  const level = test ? test.level : 0;
  /** @type {[string, string]} */
  const testLines = test ? [`press ${test.name}`, `release ${test.name}`] : [`set test ${level}`, `set test ${1 - level}`];
  return { ...createInput(test ? test.name : "test", pinKey(level), testLines), canBePressed: test !== null, isDown: level === 1 };
}

/**
 * Returns the names of all front-panel inputs.
 * @param {Face} face
 */
export function listInputNames(face) {
  return [...listKeyInputs(face), ...(face.test ? [createTestInput(face)] : [])].map(({ name }) => name);
}
