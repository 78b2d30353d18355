// Converts numbers to and from text.

/** The last address in ROM. */
export const LAST_ADDRESS = 4095;

/**
 * Formats a number in upper-case hexadecimal, padded with zeros.
 * @param {number} number
 * @param {number} digits the minimum number of digits
 */
export function hex(number, digits) {
  return number.toString(16).toUpperCase().padStart(digits, "0");
}

/**
 * Parses a decimal or hexadecimal word, such as `12` or `0x0C`; returns NaN for any other word.
 * @param {string} word
 */
export function parseNumber(word) {
  return /^(0x[0-9a-f]+|\d+)$/i.test(word) ? Number(word) : NaN;
}

/**
 * Parses a count, which can contain commas. Returns 0 for other text, for a count above `max`, and for a count with more than 9 digits.
 * @param {string} text
 * @param {number} max the largest valid count
 */
export function parseCount(text, max) {
  const digits = text.trim().replace(/,/g, "");
  const count = /^[0-9]{1,9}$/.test(digits) ? Number(digits) : 0;
  return count <= max ? count : 0;
}

/**
 * Formats a number with one decimal digit. A tie is rounded to the even digit, like `printf` in C.
 * @param {number} value zero or more
 */
export function formatTenths(value) {
  // Only odd multiples of 1/4 are exact ties in binary.
  if ((value * 4) % 2 !== 1) return value.toFixed(1);
  const lower = Math.floor(value * 10);
  return ((lower + (lower % 2)) / 10).toFixed(1);
}

/**
 * Formats a count with its noun: `1 line`, `1,543 cycles`.
 * @param {number} count
 * @param {string} singular the singular noun
 * @param {string} [plural] the plural noun
 */
export function formatQuantity(count, singular, plural = `${singular}s`) {
  return `${count.toLocaleString("en")} ${count === 1 ? singular : plural}`;
}

/**
 * Returns the numbers from 0 to `count` - 1.
 * @param {number} count
 */
export function indices(count) {
  return [...Array(count).keys()];
}
