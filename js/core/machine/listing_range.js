// Finds start addresses for a disassembled listing, and selects the visible lines. The bench disassembles from a start address onwards. If
// that address is not the start of an instruction, the lines are misaligned. They are aligned if a line starts at an address where an
// instruction is known to start (the anchor).

import { indices } from "../bench/numbers.js";
import { ADDRESS_COUNT, MAX_LISTING_LINES } from "../bench/rom_bytes.js";

/**
 * @typedef {import("../bench/answers.js").ListingLine} ListingLine
 *
 * The requested part of a listing. The first visible line is the first line at or after address `from`. If `anchor` is not null, a line
 * must start at that address.
 * @typedef {{ from: number, anchor: number | null }} ListingGoal
 */

/**
 * The number of bytes from the start of a listing to its first visible line. A misaligned listing becomes aligned within a few
 * instructions.
 */
const BYTES_BEFORE = 12;
/**
 * The maximum number of tries, not counting a try that starts at the anchor. If a listing is misaligned, the next try starts one byte
 * later.
 */
const MAX_TRIES = 4;

/**
 * Returns the start addresses to try for a listing, best first. The last address is the anchor, if the goal has one.
 * @param {ListingGoal} goal
 * @param {number} rows the number of visible lines
 */
export function listingStarts({ from, anchor }, rows) {
  // Near the end of ROM, the listing starts early enough to fill the view, even if each line has two bytes.
  const base = Math.min(from, ADDRESS_COUNT - 2 * rows) - BYTES_BEFORE;
  const starts = indices(MAX_TRIES).map((offset) => Math.max(0, base + offset));
  if (anchor !== null) starts.push(anchor);
  return [...new Set(starts)];
}

/**
 * Returns the number of lines that a listing from `start` needs, at most MAX_LISTING_LINES.
 * @param {number} start
 * @param {ListingGoal} goal
 * @param {number} rows
 */
export function countLinesNeeded(start, { from, anchor }, rows) {
  return Math.min(MAX_LISTING_LINES, Math.max(from, anchor || 0) - start + rows);
}

/**
 * Returns whether a line starts at an address; true if the address is null.
 * @param {ListingLine[]} lines
 * @param {number | null} address
 */
export function hasLineAt(lines, address) {
  return address === null || lines.some((line) => line.address === address);
}

/**
 * Returns the lines that are visible: `rows` lines from the first line at or after address `from`. Starts earlier if fewer than `rows`
 * lines would follow.
 * @param {ListingLine[]} lines
 * @param {number} from
 * @param {number} rows
 */
export function visibleLines(lines, from, rows) {
  const first = lines.findIndex((line) => line.address >= from);
  const last = Math.max(0, lines.length - rows);
  return lines.slice(first < 0 ? last : Math.min(first, last)).slice(0, rows);
}

/**
 * Returns whether an address is inside a line, after its first byte. The listing is then not aligned with the address.
 * @param {ListingLine[]} lines
 * @param {number} address
 */
export function isInsideLine(lines, address) {
  const nextIndex = lines.findIndex((line) => line.address > address);
  return nextIndex > 0 && lines[nextIndex - 1].address < address;
}
