// Finds the line range of each part in a board text. Part names are `rom 1`, `ram 0` (a bank), `chain 0`, `keys` and `lamp 3`.

import { readBoardText } from "../text/board_reader.js";

/**
 * @typedef {import("../text/board_reader.js").Entry} Entry
 * @typedef {import("../text/sendable_text.js").LineRange} LineRange
 */

/**
 * The TOML key that contains the number of a part, by the kind of the part. Parts of other kinds are numbered in order.
 * @type {Record<string, string>}
 */
const NUMBER_KEYS = { rom: "chip", ram: "bank" };
/** The kinds of parts that are numbered in order. */
const COUNTED_KINDS = ["chain", "lamp"];

/**
 * Returns the name of the part that a TOML table defines, such as `rom 1`; "" if the table defines no named part.
 * @param {Entry} entry
 * @param {Record<string, number>} counts the number of parts found so far, for each kind that is numbered in order; this function updates
 *   the numbers
 */
function partName({ table, keys }, counts) {
  const kind = table.replace(/[[\]]/g, "");
  if (kind === "keys") return "keys";
  if (kind in NUMBER_KEYS) {
    const key = keys.find(({ name }) => name === NUMBER_KEYS[kind]);
    return key && typeof key.value.inner === "number" ? `${kind} ${key.value.inner}` : "";
  }
  if (!COUNTED_KINDS.includes(kind)) return "";
  counts[kind] = (counts[kind] || 0) + 1;
  return `${kind} ${counts[kind] - 1}`;
}

/**
 * Returns the line range of each part in a board text, by the name of the part. The result can lack a part whose table is unfinished.
 * @param {string} text
 * @returns {Map<string, LineRange>}
 */
export function partLineRanges(text) {
  /** @type {Map<string, LineRange>} */
  const ranges = new Map();
  /** @type {Record<string, number>} */
  const counts = {};
  for (const entry of readBoardText(text).entries) {
    const name = partName(entry, counts);
    const ends = entry.keys.map(({ value: { end } }) => end.line);
    if (name !== "") ranges.set(name, { from: entry.line, to: Math.max(entry.line, entry.end ? entry.end.line : 0, ...ends) });
  }
  return ranges;
}

/**
 * Returns the name of the first part that contains a line of the text; "" if no part contains it.
 * @param {Map<string, LineRange>} parts
 * @param {number} line
 */
export function partAtLine(parts, line) {
  for (const [name, { from, to }] of parts) if (from <= line && line <= to) return name;
  return "";
}
