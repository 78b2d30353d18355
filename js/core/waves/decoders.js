// The decoders of a recording. A decoder is a line whose values are computed from the values of several signal lines. The decoder of a
// shift register (4003) shows the bit that each clock edge shifts in. When the clock has been at rest for REST_CYCLES cycles, the decoder
// shows all bits of the register. The decoder of the key matrix shows the driven rows and the pressed keys.

import { countUpTo } from "./number_queue.js";
import * as say from "../../words/waves.js";

/**
 * @typedef {import("./track.js").Track} Track
 * @typedef {import("./wave_lines.js").WaveLine} WaveLine
 * @typedef {import("./wave_words.js").NumberBase} NumberBase
 */

/** The number of cycles without a clock edge after which a shift register counts as being at rest. */
export const REST_CYCLES = 16;

/**
 * The values in the track of a shift register. A value is AT_REST, or the bit that was shifted in plus EVEN_SHIFT or ODD_SHIFT, which
 * alternate. Two equal bits in a row therefore still count as two changes.
 */
const AT_REST = 0;
const EVEN_SHIFT = 2;
const ODD_SHIFT = 4;

/** The radix of each number base. */
const RADIX = { hex: 16, decimal: 10, binary: 2 };

/**
 * Returns whether a line is a decoder.
 * @param {WaveLine} line
 */
export function isDecoder({ kind }) {
  return kind === "shift" || kind === "scan";
}

/**
 * Returns the moment of the last rising edge of a line, at or before `moment`; -1 if there is none.
 * @param {Track} clock the track of a one-bit line
 * @param {number} moment
 */
export function findLastRise(clock, moment) {
  const edges = clock.moments.all;
  let count = countUpTo(edges, moment);
  while (count > 0 && clock.valueAfter(count) === 0) count -= 1;
  return count > 0 ? edges[count - 1] : -1;
}

/**
 * Extends the track of a shift register up to the end of the recording.
 * @param {{ clock: Track, data: Track, rise: number }} signals the tracks of the register's clock and data lines; `rise` is the moment of
 *   the last rising clock edge up to `computedUntil`, or -1
 * @param {Track} track
 * @param {number} computedUntil the moment up to which the track is already computed
 * @param {number} end the end of the recording
 */
export function extendShiftTrack({ clock, data, rise }, track, computedUntil, end) {
  const edges = clock.moments.all;
  let lastRise = rise;
  const addRestBefore = (/** @type {number} */ until) => {
    const restStart = lastRise + REST_CYCLES;
    if (lastRise >= 0 && restStart > computedUntil && restStart <= until) track.set(AT_REST, restStart);
  };
  for (let index = countUpTo(edges, computedUntil); index < edges.length; index++) {
    if (clock.valueAfter(index + 1) === 0) continue;
    addRestBefore(edges[index] - 1);
    lastRise = edges[index];
    const shiftMark = (track.lastValue & EVEN_SHIFT) === 0 ? EVEN_SHIFT : ODD_SHIFT;
    track.set(shiftMark + data.valueAt(lastRise), lastRise);
  }
  addRestBefore(end);
}

/**
 * Formats the bits of a register as a number in a number base. Uses BigInt because a register can have more than 53 bits.
 * @param {number[]} bits the bits, lowest first
 * @param {NumberBase} base
 */
function formatBits(bits, base) {
  const number = bits.reduceRight((sum, bit) => 2n * sum + BigInt(bit), 0n);
  const text = number.toString(RADIX[base]).toUpperCase();
  return base === "decimal" ? text : text.padStart(base === "hex" ? Math.ceil(bits.length / 4) : bits.length, "0");
}

/**
 * Returns the text for a value in the track of a shift register: the bit that was shifted in; for AT_REST, all bits of the register.
 * @param {number} value
 * @param {number[]} bits
 * @param {NumberBase} base
 */
export function formatShift(value, bits, base) {
  return value === AT_REST ? say.valueAtRest(formatBits(bits, base)) : String(value & 1);
}

/**
 * Returns the positions of the 1 bits in a range of bits, relative to the first bit of the range.
 * @param {number} value
 * @param {number} from the number of the first bit
 * @param {number} to the number of the first bit after the range
 */
function findOneBits(value, from, to) {
  const positions = [];
  for (let bit = from; bit < to; bit++) if ((value >> bit) & 1) positions.push(bit - from);
  return positions;
}

/**
 * Returns the driven rows, the columns with a pressed key, and the names of the pressed keys. If several rows are driven, the keys are
 * unknown.
 * @param {WaveLine} line
 * @param {number} value a value in the track of the key scan
 */
export function parseScan({ places, columns, width }, value) {
  const rows = findOneBits(value, columns, width);
  const activeColumns = findOneBits(value, 0, columns);
  const keys = rows.length === 1 ? activeColumns.map((column) => places[rows[0] * columns + column]) : [];
  return { rows, columns: activeColumns, keys };
}

/**
 * Returns the text for a value in the track of a key scan.
 * @param {WaveLine} line
 * @param {number} value
 */
export function formatScan(line, value) {
  const { rows, columns, keys } = parseScan(line, value);
  if (rows.length === 0) return say.NO_ROW;
  const rowText = say.rowsText(rows);
  if (columns.length === 0) return rowText;
  return say.scanText(rowText, keys.length > 0 ? keys.join(" ") : say.columnsText(columns));
}
