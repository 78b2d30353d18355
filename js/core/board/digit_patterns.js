// Converts the lamps of display digits to patterns. A pattern is a bit mask: 1 for segment a, 2 for b, up to 64 for g, and 128 for the
// decimal point.

import { SEGMENT_CHARACTERS } from "./face_words.js";

/** @typedef {import("./face.js").Group} Group */

/** The pattern of a minus sign: segment g. */
export const MINUS_PATTERN = 64;
/** The bit of the decimal point in a pattern. */
export const POINT_BIT = 128;
/** The pattern of a multiplexed digit that is not selected, because its digit line is 0. */
export const UNLIT_PATTERN = -1;
/** The character code of the mark for a lamp that is on. */
const LIT_MARK_CODE = "*".charCodeAt(0);

/** @type {Map<number, string>} the displayed characters, by seven-segment pattern */
const DISPLAY_CHARACTERS = new Map([...SEGMENT_CHARACTERS].map(([marks, character]) => [segmentsAt(marks, 0), character]));
/** The pattern for a BCD value above 9: segments a, b, e and g. */
const INVALID_DIGIT_PATTERN = 1 + 2 + 16 + 64;
/** The patterns of the digits 0 to 9, in the shapes of a 7447 decoder. */
const DIGIT_PATTERNS = [..."0123456789"].map(digitPattern);

/**
 * Returns the pattern of a digit, a minus or a blank; `INVALID_DIGIT_PATTERN` for any other character.
 * @param {string} character
 */
export function digitPattern(character) {
  const [[pattern] = [INVALID_DIGIT_PATTERN]] = [...DISPLAY_CHARACTERS].filter(([, shown]) => shown === character);
  return pattern;
}

/**
 * Returns whether a lamp is on.
 * @param {string} marks one mark per lamp, `*` if the lamp is on
 * @param {number} lamp the lamp number
 */
export function isLit(marks, lamp) {
  return marks.charCodeAt(lamp) === LIT_MARK_CODE;
}

/**
 * Returns the pattern of seven consecutive lamps. The first lamp is segment a.
 * @param {string} marks one mark per lamp, `*` if the lamp is on
 * @param {number} firstLamp the number of the first lamp
 */
function segmentsAt(marks, firstLamp) {
  let bits = 0;
  for (let segment = 0; segment < 7; segment++) if (isLit(marks, firstLamp + segment)) bits |= 1 << segment;
  return bits;
}

/**
 * Returns whether a digit with the given number of lamps has a decimal point.
 * @param {number} columns the number of lamps
 */
export function hasDecimalPoint(columns) {
  return columns === 5 || columns === 8;
}

/**
 * Returns the binary value of four consecutive lamps. The first lamp is the most significant bit.
 * @param {string} marks one mark per lamp, `*` if the lamp is on
 * @param {number} firstLamp the number of the first lamp
 */
function binaryValueAt(marks, firstLamp) {
  return (isLit(marks, firstLamp) ? 8 : 0) + (isLit(marks, firstLamp + 1) ? 4 : 0)
    + (isLit(marks, firstLamp + 2) ? 2 : 0) + (isLit(marks, firstLamp + 3) ? 1 : 0);
}

/**
 * Returns the pattern of each digit of a display at one instant. A BCD display without multiplexing shows neither leading zeros nor a point
 * after the last digit.
 * @param {Group} display
 * @param {string} marks one mark per lamp, `*` if the lamp is on
 * @returns {number[]}
 */
export function digitPatterns(display, marks) {
  return display.firstRowLamp < 0 ? directPatterns(display, marks) : multiplexedPatterns(display, marks);
}

/**
 * Returns the patterns of multiplexed digits. Leading zeros stay visible, because all digits share their segment lines.
 * @param {Group} display
 * @param {string} marks one mark per lamp, `*` if the lamp is on
 */
function multiplexedPatterns({ first, rows, columns, firstRowLamp }, marks) {
  const value = binaryValueAt(marks, first);
  const segments = columns >= 7 ? segmentsAt(marks, first) : value < 10 ? DIGIT_PATTERNS[value] : INVALID_DIGIT_PATTERN;
  const point = hasDecimalPoint(columns) && isLit(marks, first + columns - 1) ? POINT_BIT : 0;
  return Array.from({ length: rows }, (_, digit) => (isLit(marks, firstRowLamp + digit) ? segments + point : UNLIT_PATTERN));
}

/**
 * Returns the patterns of digits without multiplexing.
 * @param {Group} display
 * @param {string} marks one mark per lamp, `*` if the lamp is on
 */
function directPatterns({ first, rows, columns }, marks) {
  const patterns = [];
  let isLeading = true;
  for (let digit = 0; digit < rows; digit++) {
    const firstLamp = first + digit * columns;
    const point = hasDecimalPoint(columns) && isLit(marks, firstLamp + columns - 1) ? POINT_BIT : 0;
    if (columns >= 7) {
      patterns.push(segmentsAt(marks, firstLamp) + point);
      continue;
    }
    const isLast = digit === rows - 1;
    const value = binaryValueAt(marks, firstLamp);
    isLeading = isLeading && value === 0 && point === 0 && !isLast;
    patterns.push(isLeading ? 0 : (value < 10 ? DIGIT_PATTERNS[value] : INVALID_DIGIT_PATTERN) + (isLast ? 0 : point));
  }
  return patterns;
}

/**
 * Returns the number that the patterns show, as text, without leading blanks and without a trailing point. An unknown pattern becomes `?`.
 * @param {number[]} patterns
 */
export function displayedNumber(patterns) {
  const characters = patterns.map((pattern) => {
    const bits = pattern === UNLIT_PATTERN ? 0 : pattern & ~POINT_BIT;
    return `${DISPLAY_CHARACTERS.get(bits) ?? "?"}${pattern !== UNLIT_PATTERN && pattern & POINT_BIT ? "." : ""}`;
  });
  return characters.join("").replace(/\.$/, "").replace(/^ +/, "");
}
