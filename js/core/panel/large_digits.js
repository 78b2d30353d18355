// Formats a number as large seven-segment digits, which consist of five rows of characters.

import { digitPattern } from "../board/digit_patterns.js";

/** The number of rows of a large digit. */
export const LARGE_DIGIT_ROWS = 5;
const BLANK = " ";

/** @type {(pattern: number, letter: string) => boolean} returns whether a pattern contains a segment, given as a letter from a to g */
const hasSegment = (pattern, letter) => ((pattern >> "abcdefg".indexOf(letter)) & 1) === 1;

/**
 * Returns the five rows of a large character.
 * @param {string} character a digit, another display character, or a dot
 */
function formatCharacter(character) {
  if (character === ".") return [...Array(LARGE_DIGIT_ROWS - 1).fill("  "), "# "];
  const pattern = digitPattern(character);
  const formatHorizontal = (/** @type {string} */ letter) => (hasSegment(pattern, letter) ? " ###  " : BLANK.repeat(6));
  const formatVertical = (/** @type {string} */ letters) => (
    `${[...letters].map((letter) => (hasSegment(pattern, letter) ? "#" : BLANK)).join("   ")} `);
  return [formatHorizontal("a"), formatVertical("fb"), formatHorizontal("g"), formatVertical("ec"), formatHorizontal("d")];
}

/**
 * Returns the five rows of a number in large digits.
 * @param {string} number the number as text
 */
export function largeDigitRows(number) {
  const characters = [...number].map(formatCharacter);
  return Array.from({ length: LARGE_DIGIT_ROWS }, (_, index) => characters.map((rows) => rows[index]).join(""));
}
