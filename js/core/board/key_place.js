// Defines the keys of a board, and converts keys to text and back. A key is at a row and a column of the key matrix, or at the TEST pin.

/**
 * A matrix key: its row and column, from 0.
 * @typedef {{ kind: "matrix", row: number, column: number }} MatrixKey
 *
 * The key at the TEST pin. `level` is the level of the pin while the key is pressed, 0 or 1.
 * @typedef {{ kind: "pin", level: number }} PinKey
 *
 * @typedef {MatrixKey | PinKey} Key
 */

/** The factor that combines a row and a column into one number. It exceeds the maximum number of columns. */
const ROW_FACTOR = 256;

/**
 * Creates a matrix key.
 * @param {number} row
 * @param {number} column
 * @returns {MatrixKey}
 */
export function matrixKey(row, column) {
  return { kind: "matrix", row, column };
}

/**
 * Creates the key at the TEST pin.
 * @param {number} level the pin level while the key is pressed
 * @returns {PinKey}
 */
export function pinKey(level) {
  return { kind: "pin", level };
}

/**
 * Returns whether two keys are equal.
 * @param {Key} left
 * @param {Key} right
 */
export function isSameKey(left, right) {
  if (left.kind === "matrix") return right.kind === "matrix" && left.row === right.row && left.column === right.column;
  return right.kind === "pin" && left.level === right.level;
}

/**
 * Returns a key as text: `0 2` for row 0, column 2, as in bench lines; `test 0` for a key at the TEST pin with level 0.
 * @param {Key} key
 */
export function formatKey(key) {
  return key.kind === "matrix" ? `${key.row} ${key.column}` : `test ${key.level}`;
}

/**
 * Parses the text of a key, such as `0 2` or `test 0`; returns null for any other text.
 * @param {string} text
 * @returns {Key | null}
 */
export function parseKey(text) {
  const [, row, column, level] = /^(?:(\d{1,3}) (\d{1,3})|test ([01]))$/.exec(text) || [];
  if (level !== undefined) return pinKey(Number(level));
  return row === undefined ? null : matrixKey(Number(row), Number(column));
}

/**
 * Returns the bench line that presses or releases a key.
 * @param {"press" | "release"} word
 * @param {Key} key
 */
export function keyLine(word, key) {
  if (key.kind === "matrix") return `${word} ${key.row} ${key.column}`;
  return `test ${word === "press" ? key.level : 1 - key.level}`;
}

/** The set of matrix keys that the bench reports as pressed. */
export class PressedKeys {
  /** @param {string[]} keyTexts the pressed keys: `0.2` for row 0, column 2 */
  constructor(keyTexts = []) {
    /** @type {Set<number>} the numbers of the pressed keys, computed from their rows and columns */
    this.numbers = new Set();
    for (const keyText of keyTexts) {
      const [row, column] = keyText.split(".");
      this.numbers.add(Number(row) * ROW_FACTOR + Number(column));
    }
  }

  get count() {
    return this.numbers.size;
  }

  /**
   * Returns whether a key is pressed.
   * @param {Key} key
   * @param {string} level the current TEST level, `0` or `1`
   */
  has(key, level) {
    return key.kind === "matrix" ? this.numbers.has(key.row * ROW_FACTOR + key.column) : level === String(key.level);
  }
}
