// Formats a profile as a table for a terminal, with one row per label and one row per pressed key.

import { formatTenths, hex } from "../bench/numbers.js";
import { CYCLE_MS } from "../time/mcs4_time.js";
import * as say from "../../words/testing.js";

/**
 * @typedef {import("./profile.js").Profile} Profile
 * @typedef {import("./profile.js").ProfileRow} ProfileRow
 */

const LABEL_WIDTH = 17;
/** The width of the label column and the address column together, in characters. */
const LOCATION_WIDTH = 22;

/** @type {(value: string | number, width: number) => string} returns a right-aligned table cell */
const formatCell = (value, width) => String(value).padStart(width);

/** @type {(cycles: number) => string} returns the duration of a number of cycles in milliseconds, as text */
const formatMilliseconds = (cycles) => say.inMilliseconds(formatTenths(cycles * CYCLE_MS));

/** @type {(ownCycles: number, total: number) => string} returns two table cells: the cycles, and their percentage of the total */
const formatShare = (ownCycles, total) => `${formatCell(ownCycles, 10)} ${formatCell(formatTenths((100 * ownCycles) / total), 6)}`;

/**
 * Returns the table row for a label: its address, its cycles, and the number and cycles of its calls.
 * @param {ProfileRow} row
 * @param {number} total
 */
function formatLabelRow({ label, address, ownCycles, calls }, total) {
  const place = `${(label || say.NO_LABEL).padEnd(LABEL_WIDTH)} ${(address < 0 ? "" : hex(address, 3)).padEnd(4)}`;
  const callColumns = calls && calls.callCount > 0
    ? ` ${formatCell(calls.callCount, 9)} ${formatCell(calls.cyclesWithCalls, 10)} ${formatCell(calls.longestCall, 10)}` : "";
  return `${place} ${formatShare(ownCycles, total)}${callColumns}`;
}

/**
 * Returns the table row for a key: the numbers of presses and of answered presses, and the response times.
 * @param {Profile["keys"][number]} times
 */
function formatKeyRow({ key, presses, answered, first, last }) {
  const timeColumns = [first, last].map((cycles) => ` ${formatCell(cycles, 10)}, ${formatCell(formatMilliseconds(cycles), 12)}`).join("");
  return `${key.padEnd(LABEL_WIDTH)} ${formatCell(presses, 9)} ${formatCell(answered, 9)}${answered > 0 ? timeColumns : ""}`;
}

/**
 * Returns the profile as a table.
 * @param {Profile} profile
 */
export function profileText({ total, rows, earlierInstructionCycles, keys }) {
  const [label, address, ownCycles, percent, calls, cyclesWithCalls, longestCall] = say.PROFILE_HEADINGS;
  const labelTableHeader = [label.padEnd(LABEL_WIDTH), address.padEnd(4), formatCell(ownCycles, 10), formatCell(percent, 6),
    formatCell(calls, 9), formatCell(cyclesWithCalls, 10), formatCell(longestCall, 10)].join(" ");
  const [key, presses, answered, first, last] = say.KEY_TABLE_HEADINGS;
  const keyTableHeader = [key.padEnd(LABEL_WIDTH), formatCell(presses, 9), formatCell(answered, 9), formatCell(first, 24),
    formatCell(last, 24)].join(" ");
  return `${[
    say.cyclesInTime(total, formatMilliseconds(total)), "", labelTableHeader, ...rows.map((row) => formatLabelRow(row, total)),
    ...(earlierInstructionCycles > 0
      ? [`${say.BEGUN_EARLIER.padEnd(LOCATION_WIDTH)} ${formatShare(earlierInstructionCycles, total)}`] : []),
    ...(keys.length > 0 ? ["", keyTableHeader, ...keys.map(formatKeyRow)] : []),
  ].join("\n")}\n`;
}
