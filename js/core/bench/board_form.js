// Defines the format of a board text for the page: the TOML keys and signal lines of each part, the ranges of values, and the maximum
// number of parts. Only the bench decides whether a board is valid. A unit test compares each limit with that of the bench.

import { indices } from "./numbers.js";

/**
 * @typedef {import("./answers.js").Board} Board
 * @typedef {"rom" | "ram" | "chain" | "keys" | "lamp"} Kind
 *
 * A signal line of the board: a line of a ROM port or of a RAM port, or a chain bit.
 * @typedef {{ name: string, kind: "rom" | "ram" | "bit", isInput: boolean }} BoardLine
 */

/**
 * The TOML keys of each kind of part, in the order in which the bench reports them.
 * @type {Record<string, string[]>}
 */
export const PART_KEYS = {
  rom: ["chip", "port"], ram: ["bank", "chips"], chain: ["clock", "data", "chips"], keys: ["chain", "first", "rows", "columns"],
  lamp: ["line"],
};
/** The kinds of parts, in the order in which the bench reports them. */
export const PART_KINDS = /** @type {Kind[]} */ (Object.keys(PART_KEYS));

/** @type {Record<string, { from: number, to: number }>} the range of each numeric value, both limits included, by `part.key` */
export const VALUE_RANGES = {
  "rom.chip": { from: 0, to: 15 }, "ram.bank": { from: 0, to: 7 }, "ram.chips": { from: 1, to: 4 }, "chain.chips": { from: 1, to: 8 },
  "keys.chain": { from: 0, to: 3 }, "keys.first": { from: 0, to: 79 }, "keys.rows": { from: 1, to: 10 },
};
/**
 * The maximum number of parts of each kind on a board.
 * @type {Record<string, number>}
 */
export const MAX_PARTS = { rom: 16, ram: 8, chain: 4, lamp: 64 };
/** The maximum number of columns in a key matrix. */
export const MAX_COLUMNS = 8;
/** The number of bits in each chip of a chain (a 4003). */
export const BITS_PER_CHIP = 10;
const PORT_LINES = indices(4);

/**
 * Returns all signal lines of a board: ROMs first, then RAM, then chains.
 * @param {Pick<Board, "roms" | "banks"> & { chains: { chips: number }[] }} board
 * @returns {BoardLine[]}
 */
export function signalLines({ roms, banks, chains }) {
  /** @type {BoardLine[]} */
  const lines = [];
  for (const { chip, port } of roms) {
    for (const portLine of PORT_LINES) lines.push({ name: `rom${chip}.${portLine}`, kind: "rom", isInput: port[3 - portLine] === "i" });
  }
  for (const { bank, chips } of banks) {
    for (const chip of indices(chips)) {
      for (const portLine of PORT_LINES) lines.push({ name: `ram${bank}.${chip}.${portLine}`, kind: "ram", isInput: false });
    }
  }
  chains.forEach(({ chips }, chain) => {
    for (const bit of indices(BITS_PER_CHIP * chips)) lines.push({ name: `chain${chain}.${bit}`, kind: "bit", isInput: false });
  });
  return lines;
}

/** The names of all signal lines that a board can have. */
export const SIGNAL_LINE_NAMES = new Set(signalLines({
  roms: indices(MAX_PARTS.rom).map((chip) => ({ chip, port: "0000" })),
  banks: indices(MAX_PARTS.ram).map((bank) => ({ bank, chips: VALUE_RANGES["ram.chips"].to })),
  chains: indices(MAX_PARTS.chain).map(() => ({ chips: VALUE_RANGES["chain.chips"].to })),
}).map(({ name }) => name));
