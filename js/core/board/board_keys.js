// The keys of a board: their positions, their legends, and the keyboard characters that press them.

import { matrixKey, pinKey, formatKey } from "./key_place.js";
import * as say from "../../words/board.js";

/**
 * @typedef {import("../bench/answers.js").Board} Board
 * @typedef {import("./face.js").Face} Face
 *
 * @typedef {import("./key_place.js").Key} Key
 *
 * A key of the board, or the button or switch at the TEST pin. `legend` is the text on the key, "" for a position without a key.
 * `description` is a longer text that includes the key's position. `isNamed` is true if the front panel defines the legend. `letter` is the
 * keyboard character that presses the key, "" for none.
 * @typedef {{ key: Key, legend: string, description: string, isNamed: boolean, isSwitch: boolean, letter: string }} BoardKey
 */

/** The keyboard characters for keys whose names contain only characters that other keys use, in order of preference. */
const FALLBACK_LETTERS = "1234567890qwertyuiopasdfghjklzxcvbnm";

/**
 * Returns a free character for a key: the first free character of its name, otherwise of FALLBACK_LETTERS. Returns "" if no character is
 * free.
 * @param {string} name the name of the key
 * @param {Set<string>} usedLetters
 */
function findFreeLetter(name, usedLetters) {
  return [...name.toLowerCase(), ...name.toUpperCase(), ...FALLBACK_LETTERS].find((letter) => !usedLetters.has(letter)) || "";
}

/**
 * Returns the keys of a board, row by row, followed by the button or switch at the TEST pin if the front panel has one.
 * @param {Pick<Board, "rows" | "columns">} board
 * @param {Pick<Face, "keys" | "test">} face
 * @returns {BoardKey[]}
 */
export function boardKeys(board, face) {
  const keys = [];
  const usedLetters = new Set([...face.keys.values()].map(({ text }) => text).filter((name) => name.length === 1));
  /** @type {(legend: string, name: string) => string} */
  const takeLetter = (legend, name) => {
    const letter = legend.length === 1 ? legend : findFreeLetter(name, usedLetters);
    if (letter) usedLetters.add(letter);
    return letter;
  };
  for (let row = 0; row < board.rows; row++) {
    for (let column = 0; column < board.columns; column++) {
      const key = matrixKey(row, column);
      const keyName = face.keys.get(formatKey(key));
      const legend = keyName ? keyName.text.replace(/_/g, " ") : `${row}.${column}`;
      const description = say.keyAt(legend, row, column);
      const letter = legend === "" ? "" : takeLetter(legend, keyName ? keyName.text : "");
      keys.push({ key, legend, description, isNamed: Boolean(keyName && legend), isSwitch: false, letter });
    }
  }
  return face.test ? [...keys, createTestPinKey(face.test, takeLetter)] : keys;
}

/**
 * Returns the button or switch at the TEST pin.
 * @param {import("./face.js").TestPin} test
 * @param {(legend: string, name: string) => string} takeLetter reserves and returns the keyboard character for a key
 */
function createTestPinKey({ kind, name, level }, takeLetter) {
  const legend = name.replace(/_/g, " ");
  const description = say.keyAtTest(kind, legend);
  return { key: pinKey(level), legend, description, isNamed: true, isSwitch: kind === "switch", letter: takeLetter(legend, name) };
}

/**
 * The legend of the board key that each special keyboard key presses.
 * @type {Record<string, string>}
 */
const SPECIAL_KEYS = { Enter: "=", Escape: "C", Backspace: "CE", Delete: "CE", ",": "." };

/**
 * Returns the board key that a keyboard key presses; undefined if there is none. Returns the first match in this order: a key whose letter
 * equals `keyboardKey`, a key with the legend in SPECIAL_KEYS, a key whose letter differs only in case.
 * @template {BoardKey} ShownKey
 * @param {ShownKey[]} keys
 * @param {string} keyboardKey the `key` of the keyboard event
 * @returns {ShownKey | undefined}
 */
export function findBoardKey(keys, keyboardKey) {
  const letter = keyboardKey.length === 1 ? keyboardKey : "";
  const exactMatch = keys.find((key) => letter !== "" && key.letter === letter);
  if (exactMatch) return exactMatch;
  const name = SPECIAL_KEYS[keyboardKey];
  const namedKey = name && keys.find((key) => key.legend === name);
  if (namedKey) return namedKey;
  return keys.find((key) => letter !== "" && key.letter.toLowerCase() === letter.toLowerCase());
}

/**
 * Returns the hint that the page shows below the keys.
 * @param {BoardKey[]} keys
 */
export function keyHint(keys) {
  if (keys.length === 0) return say.NO_KEYS;
  const namesHint = keys.some((key) => key.isNamed) ? "" : say.KEY_NAMING_HINT;
  return say.keysHint(namesHint);
}
