// Translates the names in conditions, such as `acc` or `rom0`, to cells of the prover's machine state. Formats comparisons of cells as
// lines of a question (crates/mcs_prove/src/lines.rt parses these lines). A cell is a number in one of the lists of the machine state, such
// as `register` or `counter`.

import { hex, indices } from "../bench/numbers.js";
import { ADDRESS_COUNT, PAGE_BYTES } from "../bench/rom_bytes.js";

/**
 * @typedef {import("../bench/answers.js").Board} Board
 *
 * A comparison of one cell with a range, as a line of a question.
 * @typedef {string} Comparison
 *
 * A list of comparisons that must all be true (a conjunction).
 * @typedef {Comparison[]} Comparisons
 *
 * A part of the machine state that a condition can read, such as a register. Its values are the numbers from 0 to `count` - 1. `texts`
 * returns the strings that `trace` can show for a value; there are several if `trace` also shows the levels of input lines. `between`
 * returns the condition that the value is in a range: at least one of the returned conjunctions must be true.
 * @typedef {{ name: string, count: number, texts: (number: number) => string[],
 *   between: (low: number, high: number) => Comparisons[] }} Field
 */

/** The index of each cell of the processor's state in the prover's `counter` list. */
export const COUNTER_CELLS = { acc: 0, cy: 1, dcl: 2, owed: 3, page: 4, word: 5, src: 12 };
const NIBBLE_VALUE_COUNT = 16;

/** @type {(list: string, index: number, low: number, high: number, part?: string) => Comparison} returns the line that compares a cell with
 *    a range; `part` is `whole` or the bit, such as `line0` */
const formatComparison = (list, index, low, high, part = "whole") => ["in", list, index, part, low, high].join(" ");

/** A conjunction that is never true. */
export const IMPOSSIBLE_COMPARISONS = [formatComparison("register", 0, 1, 0)];

/**
 * Creates the field for all bits of a cell.
 * @param {string} name
 * @param {string} list
 * @param {number} index
 * @param {number} count the number of values
 * @param {number} [digits] the number of hexadecimal digits that `trace` shows
 * @returns {Field}
 */
function createCellField(name, list, index, count, digits = 1) {
  return { name, count, texts: (number) => [hex(number, digits)], between: (low, high) => [[formatComparison(list, index, low, high)]] };
}

/**
 * Creates the field for one bit of a cell.
 * @param {string} name
 * @param {string} list
 * @param {number} index
 * @param {string} [part] the bit, such as `line0`; `whole` for a cell with one bit
 * @returns {Field}
 */
function createBitField(name, list, index, part = "whole") {
  return {
    name, count: 2, texts: (number) => [String(number)], between: (low, high) => [[formatComparison(list, index, low, high, part)]],
  };
}

/**
 * Creates the field for the program counter, which consists of two cells.
 * @returns {Field}
 */
function createCounterField() {
  return {
    name: "pc", count: ADDRESS_COUNT, texts: (number) => [hex(number, 3)],
    between: (low, high) => indices(NIBBLE_VALUE_COUNT).flatMap((page) => {
      const [first, last] = [Math.max(low, page * PAGE_BYTES), Math.min(high, page * PAGE_BYTES + PAGE_BYTES - 1)];
      if (first > last) return [];
      const { page: pageCell, word: wordCell } = COUNTER_CELLS;
      const pageComparison = formatComparison("counter", pageCell, page, page);
      return [[pageComparison, formatComparison("counter", wordCell, first % PAGE_BYTES, last % PAGE_BYTES)]];
    }),
  };
}

/**
 * Creates the field for the port of a ROM. For an input line of the port, `trace` shows its level, but the bit in the cell is always 0.
 * @param {string} name
 * @param {Board["roms"][number]} rom
 * @returns {Field}
 */
function createRomField(name, { chip, port }) {
  const inputMask = [...port].reduce((sum, mark, at) => sum + (mark === "i" ? 2 ** (3 - at) : 0), 0);
  const possibleLevels = indices(NIBBLE_VALUE_COUNT).filter((levels) => (levels & ~inputMask) === 0);
  return {
    name, count: NIBBLE_VALUE_COUNT,
    texts: (number) => ((number & inputMask) === 0 ? possibleLevels.map((levels) => hex(number | levels, 1)) : []),
    between: (low, high) => [[formatComparison("romport", Number(chip), low, high)]],
  };
}

/**
 * Returns the field for a register of the processor, such as `r3` or `pc`; null for any other name.
 * @param {string} place
 * @returns {Field | null}
 */
function findRegisterField(place) {
  const [, register] = /^r(\d+)$/.exec(place) || [];
  if (register) return createCellField(place, "register", Number(register), NIBBLE_VALUE_COUNT);
  switch (place) {
    case "acc": return createCellField(place, "counter", COUNTER_CELLS.acc, NIBBLE_VALUE_COUNT);
    case "cy": return createCellField(place, "counter", COUNTER_CELLS.cy, 2);
    case "dcl": return createCellField(place, "counter", COUNTER_CELLS.dcl, 8);
    case "src": return createCellField(place, "counter", COUNTER_CELLS.src, PAGE_BYTES, 2);
    case "pc": return createCounterField();
    default: return null;
  }
}

/**
 * Returns the field for a RAM nibble or a status character; null for any other name.
 * @param {string} place
 * @returns {Field | null}
 */
function findMemoryField(place) {
  const [, bank, byte] = /^ram\.(\d)\.0x(\w\w)$/.exec(place) || [];
  if (bank) return createCellField(place, "character", Number(bank) * PAGE_BYTES + parseInt(byte, 16), NIBBLE_VALUE_COUNT);
  const [, statusBank, high, status] = /^st\.(\d)\.(\d+)\.(\d)$/.exec(place) || [];
  if (!statusBank) return null;
  const index = (Number(statusBank) * NIBBLE_VALUE_COUNT + Number(high)) * 4 + Number(status);
  return createCellField(place, "status", index, NIBBLE_VALUE_COUNT);
}

/**
 * Returns the field for an output line of a board; null for an input line.
 * @param {string} line the name of the line in the board text
 * @param {Board} board
 * @returns {Field | null}
 */
export function outputLineField(line, { roms }) {
  const [, rom, romLine] = /^rom(\d+)\.(\d)$/.exec(line) || [];
  if (rom) {
    const romWithLine = roms.find(({ chip }) => Number(chip) === Number(rom));
    const isInput = romWithLine !== undefined && romWithLine.port[3 - Number(romLine)] === "i";
    return isInput ? null : createBitField(line, "romport", Number(rom), `line${romLine}`);
  }
  const [, bank, chip, ramLine] = /^ram(\d)\.(\d)\.(\d)$/.exec(line) || [];
  if (bank) return createBitField(line, "ramport", Number(bank) * 4 + Number(chip), `line${ramLine}`);
  const [, chain, bit] = /^chain(\d)\.(\d+)$/.exec(line) || [];
  return chain ? createBitField(line, `chain${chain}`, Number(bit)) : null;
}

/**
 * Returns the field for a name that `trace` accepts; null if the value of this name comes from an input. The names `lamps` and `chainN`
 * have no field, but each of their bits has one (`outputLineField`).
 * @param {string} place
 * @param {Board} board
 * @returns {Field | null}
 */
export function findField(place, board) {
  const simpleField = findRegisterField(place) || findMemoryField(place) || outputLineField(place, board);
  if (simpleField) return simpleField;
  const [, chip] = /^rom(\d+)$/.exec(place) || [];
  const rom = chip && board.roms.find((candidate) => Number(candidate.chip) === Number(chip));
  if (rom) return createRomField(place, rom);
  const [, bank, ram] = /^ram(\d)\.(\d)$/.exec(place) || [];
  return bank ? createCellField(place, "ramport", Number(bank) * 4 + Number(ram), NIBBLE_VALUE_COUNT) : null;
}

/** The field that is 1 if the second cycle of an instruction is pending. */
export const SECOND_CYCLE_FIELD = createBitField("owed", "counter", COUNTER_CELLS.owed);

/**
 * Returns the conjunction that is true if the program counter is at an address and no second cycle is pending.
 * @param {number} address
 * @returns {Comparisons}
 */
export function addressComparisons(address) {
  const [counter] = createCounterField().between(address, address);
  return [...SECOND_CYCLE_FIELD.between(0, 0)[0], ...counter];
}
