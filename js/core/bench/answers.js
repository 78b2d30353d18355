// Parses the answers of the bench.

import { isListingLine } from "./answer_table.js";

/**
 * @typedef {{ cycles: number, end: string }} Run the number of cycles that ran, and the bench's word for the reason why the run ended
 * @typedef {{ number: number, line: number }} Refusal an error number of the bench, and the number of the text line with the error (0 for
 *   none)
 *
 * The registers, as strings in the form in which the bench prints them. `owed` is "1" while the second cycle of an instruction is pending.
 * `bank` is the RAM bank that DCL selected. `returns` are the return addresses, newest first.
 * @typedef {{ accumulator: string, carry: string, counter: string, owed: string, bank: string, test: string, registers: string[],
 *   returns: string[] }} Registers
 *
 * The RAM characters and the status characters of a RAM register, one hexadecimal digit each.
 * @typedef {{ characters: string, status: string }} RamRegister
 * @typedef {{ registers: Map<string, RamRegister>, ports: Map<string, string> }} Ram the registers and output ports of a RAM bank, by name
 * @typedef {{ chip: string, out: string, in: string }} RomPort the latched output and the input levels of a ROM port
 *
 * The ports. `srcBytes` are the SRC bytes latched in the ROMs (`21`) and in each bank (`0.21`). `chains` are the bits of each chain, and
 * `keys` the pressed keys.
 * @typedef {{ srcBytes: string[], roms: RomPort[], chains: string[], keys: string[] }} Ports
 * @typedef {{ address: number, line: string }} ListingLine a line of a listing, and its address
 * @typedef {{ line: number, address: number, size: number }} MappedLine a program line: its number from 1, its address, and its size in
 *   bytes
 * @typedef {{ lines: MappedLine[], names: { name: string, value: number }[] }} ProgramMap the lines and names of an assembled program
 * @typedef {{ clock: string, data: string, chips: number }} Chain the clock and data lines of a shift-register chain, and its number of
 *   chips
 * @typedef {{ chain: number, first: number, rows: number, columns: string[] }} Matrix the key matrix: bit `first + r` of the chain drives
 *   row r, and `columns` are the input lines
 *
 * The parts of a board. `lamps` are the lines that drive the lamps. `rows` and `columns` are the size of the key matrix, or 0 without a
 * matrix.
 * @typedef {{ banks: { bank: number, chips: number }[], chains: Chain[], roms: { chip: number, port: string }[], lamps: string[],
 *   rows: number, columns: number, matrix: Matrix | null }} Board
 */

/**
 * Parses a refusal, such as `no 42` or `no 31 line 5`. Returns its error number and line number (0 for none); null for any other answer.
 * Ignores the name of the board part in the refusal of a board text.
 * @param {string} answer
 * @returns {Refusal | null}
 */
export function parseRefusal(answer) {
  const match = /^no (\d+)(?: line (\d+)(?: .+)?)?$/.exec(answer);
  return match && { number: Number(match[1]), line: Number(match[2] || 0) };
}

/**
 * Parses the answer to a run, such as `ok 7 ran 100 end`. Returns the number of cycles, and the bench's word for the reason why the run
 * ended. Returns null for any other answer.
 * @param {string} answer
 * @returns {Run | null}
 */
export function readRun(answer) {
  const match = /^ok \d+ ran (\d+) (\w+)$/.exec(answer);
  return match && { cycles: Number(match[1]), end: match[2] };
}

/**
 * Returns whether an answer is a refusal, or reports a run that stopped early.
 * @param {string} answer
 */
export function isRefusalOrStop(answer) {
  const run = readRun(answer);
  return run ? run.end !== "end" : parseRefusal(answer) !== null;
}

/**
 * Reads the answer to `regs`.
 * @param {string} answer
 * @returns {Registers}
 */
export function readRegisters(answer) {
  const words = answer.split(" ");
  return {
    accumulator: words[1], carry: words[3], counter: words[5], owed: words[7], bank: words[9], test: words[11],
    registers: [...words[13]], returns: words.slice(15),
  };
}

/**
 * Reads two values from the answer to `regs`: the program counter, and whether the second cycle of an instruction is pending (`owed`).
 * @param {string} answer
 */
export function readCounter(answer) {
  const [, , , , , counter, , owed] = answer.split(" ", 8);
  return { counter, owed };
}

/**
 * Reads the answer to `ram B`. In the result, registers have names of the form `bank.chip.register`, and ports have names of the form
 * `bank.chip`.
 * @param {string[]} answers
 * @returns {Ram}
 */
export function readRam(answers) {
  const registers = new Map();
  const ports = new Map();
  for (const answer of answers.slice(1)) {
    const [name, first, second] = answer.split(" ");
    if (first === "out") ports.set(name, second);
    else registers.set(name, { characters: first, status: second });
  }
  return { registers, ports };
}

/**
 * Returns the words after the first word of an answer, such as `breaks 000 003`, `watches 0.00` or `lamps **.`. Returns an empty list if
 * `-` follows the first word.
 * @param {string} answer
 */
export function readItems(answer) {
  const words = answer.split(" ").slice(1);
  return words[0] === "-" ? [] : words;
}

/**
 * Returns the watched RAM characters as place names, such as `ram.0.0x3F`.
 * @param {string} answer the answer to `watches`
 */
export function watchedPlaces(answer) {
  return readItems(answer).map((place) => `ram.${place.replace(".", ".0x")}`);
}

/**
 * Reads the answer to `map`. If the answer is a refusal, returns a map without lines and names.
 * @param {string[]} answers
 * @returns {ProgramMap}
 */
export function readMap(answers) {
  /** @type {ProgramMap} */
  const map = { lines: [], names: [] };
  for (const answer of answers) {
    const [kind, first, second, third] = answer.split(" ");
    if (kind === "line") map.lines.push({ line: Number(first), address: parseInt(second, 16), size: Number(third) });
    if (kind === "name") map.names.push({ name: first, value: parseInt(second, 16) });
  }
  return map;
}

/**
 * Returns the listing lines among the answers, with their addresses.
 * @param {string[]} answers
 * @returns {ListingLine[]}
 */
export function readListing(answers) {
  return answers.filter(isListingLine).map((line) => ({ address: parseInt(line.slice(0, 3), 16), line }));
}

/**
 * Returns the TOML tables in the answer to `board`. Each value in this answer is also valid JSON.
 * @param {string[]} answers
 * @returns {Record<string, any>[]}
 */
function readTables(answers) {
  /** @type {Record<string, any>[]} */
  const tables = [];
  for (const answer of answers.slice(1)) {
    const header = /^\[+([a-z]+)\]+$/.exec(answer);
    const value = /^([a-z]+) = (.*)$/.exec(answer);
    if (header) tables.push({ table: header[1] });
    else if (value) tables[tables.length - 1][value[1]] = JSON.parse(value[2]);
  }
  return tables;
}

/**
 * Reads the answer to `board`.
 * @param {string[]} answers
 * @returns {Board}
 */
export function readBoard(answers) {
  const tables = readTables(answers);
  /** @type {(name: string) => any[]} */
  const tablesNamed = (name) => tables.filter((entry) => entry.table === name);
  const [keys = null] = tablesNamed("keys");
  return {
    banks: tablesNamed("ram"),
    chains: tablesNamed("chain"),
    roms: tablesNamed("rom"),
    lamps: tablesNamed("lamp").map((lamp) => lamp.line),
    rows: keys ? keys.rows : 0,
    columns: keys ? keys.columns.length : 0,
    matrix: keys,
  };
}
