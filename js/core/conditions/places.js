// Parses place names. A place is a register, a register pair, a RAM nibble, a signal line, a port, a shift-register chain, a lamp or all
// lamps. The displayed name of a place is its name in a `trace` line, if `trace` reports the place under one name. A place can list the
// `trace` places that report its value on a board.

import { BITS_PER_CHIP } from "../bench/board_form.js";
import { LAST_ADDRESS, hex, parseNumber, indices } from "../bench/numbers.js";

/**
 * @typedef {import("../bench/answers.js").Board} Board
 *
 * A place. `name` is its displayed name. `probesOn` returns the `trace` places that report its value; an empty list if the board does not
 * have the place. `textOf` returns its value in the spelling of `trace`. `numberOf` returns its value as a number. `maxValueOn` returns the
 * maximum of this number, -1 if the value is not a number.
 * @typedef {{ name: string, maxValueOn: (board: Board) => number, probesOn: (board: Board) => string[],
 *   textOf: (answers: string[]) => string, numberOf: (answers: string[]) => number }} Place
 */

/** The usual name of the accumulator on other processors, in lower case. */
const ACCUMULATOR_ALIAS = "a";
/** The number of nibbles in a RAM register, without the status characters. */
export const NIBBLES_PER_REGISTER = 16;
/** The number of status characters in a RAM register. */
export const STATUS_CHARACTERS_PER_REGISTER = 4;
/**
 * The maximum values of places that do not have 4 bits, except register pairs and ROM bytes, which have 8 bits. The value of `ret` is not a
 * number.
 */
const MAX_VALUES = new Map([["cy", 1], ["test", 1], ["owed", 1], ["pc", LAST_ADDRESS], ["dcl", 7], ["src", 255], ["ret", -1]]);
const MAX_BYTE = 255;
const MAX_DIGIT = 15;
/** The maximum number of lamps that a JavaScript number can represent exactly with one bit per lamp. */
const MAX_NUMERIC_LAMPS = 52;

/** Place names for completion. All of these places except `lamps` exist on every board. */
export const PLACE_WORDS = [
  "acc", "cy", "pc", "dcl", "src", "test", "lamps", ...indices(16).map((register) => `r${register}`),
  ...indices(8).map((pair) => `p${pair}`)];

/** @type {(place: string) => number} returns the maximum value of a place; -1 if the value is not a number */
export const maxPlaceValue = (place) => MAX_VALUES.get(place) ?? (/^(p\d$|rom\.)/.test(place) ? MAX_BYTE : MAX_DIGIT);

/** @type {(answers: string[]) => string} returns the only answer for a place that `trace` reports under one name */
const onlyAnswer = ([answer]) => answer;

/**
 * Returns the number whose hexadecimal digits are the answers, most significant digit first.
 * @param {string[]} answers
 */
const parseHexDigits = (answers) => parseInt(answers.join(""), 16);

/**
 * Returns the place that `trace` reports under the given name.
 * @param {string} name
 * @param {(board: Board) => boolean} [existsOn] returns whether a board has the place
 * @returns {Place}
 */
function createTracePlace(name, existsOn = () => true) {
  return {
    name, maxValueOn: () => maxPlaceValue(name), probesOn: (board) => (existsOn(board) ? [name] : []), textOf: onlyAnswer,
    numberOf: parseHexDigits,
  };
}

/**
 * Returns the place for a signal line, with value 0 or 1.
 * @param {string} name
 * @param {(board: Board) => boolean} existsOn returns whether a board has the line
 * @returns {Place}
 */
function createSignalLinePlace(name, existsOn) {
  return { ...createTracePlace(name, existsOn), maxValueOn: () => 1 };
}

/**
 * Returns whether a RAM bank of the board has a chip.
 * @param {Board} board
 * @param {number} bank
 * @param {number} chip
 */
function hasRam({ banks }, bank, chip) {
  return banks.some((ramBank) => ramBank.bank === bank && chip < ramBank.chips);
}

/**
 * Returns the place for the name of a register or register pair; null for any other text.
 * @param {string} name
 * @returns {Place | null}
 */
function parseRegisterPlace(name) {
  if (/^(acc|cy|pc|dcl|src|ret|r\d|r1[0-5])$/.test(name)) return createTracePlace(name);
  const pairMatch = /^p([0-7])$/.exec(name);
  if (!pairMatch) return null;
  const halves = [0, 1].map((half) => `r${2 * Number(pairMatch[1]) + half}`);
  return { ...createTracePlace(name), probesOn: () => halves, textOf: (answers) => answers.join("") };
}

/**
 * Returns the place for the name of a RAM nibble or a status character, such as `ram.0.0x12`, `ram 0 0x12` or `st.0.1.2`; null for any
 * other text.
 * @param {string} text
 * @returns {Place | null}
 */
function parseMemoryPlace(text) {
  const [word, ...parts] = text.split(/[\s.]+/);
  const [bank, byteOrRegister, statusNumber = 0] = parts.map(parseNumber);
  const isCharacter = word === "ram" && parts.length === 2 && byteOrRegister <= MAX_BYTE;
  const isStatus = word === "st" && parts.length === 3 && byteOrRegister <= MAX_DIGIT && statusNumber < STATUS_CHARACTERS_PER_REGISTER;
  if (!(bank <= 7) || (!isCharacter && !isStatus)) return null;
  const chip = (isStatus ? byteOrRegister : byteOrRegister >> 4) >> 2;
  const name = isStatus ? `st.${bank}.${byteOrRegister}.${statusNumber}` : `ram.${bank}.0x${hex(byteOrRegister, 2)}`;
  return createTracePlace(name, (board) => hasRam(board, bank, chip));
}

/**
 * Returns the place for the name of a port or a port line, such as `rom1`, `rom1.2`, `ram0.0` or `ram0.0.3`; null for any other text.
 * @param {string} name
 * @returns {Place | null}
 */
function parsePortPlace(name) {
  const match = /^(?:(rom)(\d|1[0-5])|ram([0-7])\.([0-3]))(\.[0-3])?$/.exec(name);
  if (!match) return null;
  const [, romWord, rom, bank, chip, line] = match;
  /** @type {(board: Board) => boolean} */
  const existsOn = (board) => (
    romWord ? board.roms.some((romChip) => Number(romChip.chip) === Number(rom)) : hasRam(board, Number(bank), Number(chip)));
  return line ? createSignalLinePlace(name, existsOn) : createTracePlace(name, existsOn);
}

/**
 * Converts lamp marks to a number: bit k is 1 if lamp k is on.
 * @param {string[]} answers
 */
function marksToNumber([marks]) {
  return [...marks].reduce((sum, mark, lamp) => sum + (mark === "*" ? 2 ** lamp : 0), 0);
}

/**
 * Returns the place for `lamps`, or for the name of a lamp, a chain or a chain bit; null for any other text.
 * @param {string} name
 * @returns {Place | null}
 */
function parseLampPlace(name) {
  if (name === "lamps") {
    return {
      name, maxValueOn: ({ lamps }) => (lamps.length <= MAX_NUMERIC_LAMPS ? 2 ** lamps.length - 1 : -1),
      probesOn: ({ lamps }) => (lamps.length > 0 ? ["lamps"] : []), textOf: onlyAnswer, numberOf: marksToNumber,
    };
  }
  const lampMatch = /^lamp[ .]?(\d+)$/.exec(name);
  if (lampMatch) {
    const lampNumber = Number(lampMatch[1]);
    // The value of a lamp is the level of its signal line.
    return {
      ...createSignalLinePlace(`lamp ${lampNumber}`, () => true), probesOn: ({ lamps }) => lamps.slice(lampNumber, lampNumber + 1),
      textOf: ([answer]) => (answer === "1" ? "*" : "."),
    };
  }
  const chainMatch = /^chain([0-3])(?:\.(\d+))?$/.exec(name);
  if (!chainMatch) return null;
  const [, number, bit] = chainMatch;
  if (bit === undefined) return { ...createTracePlace(name, ({ chains }) => Number(number) < chains.length), maxValueOn: () => -1 };
  const existsOn = (/** @type {Board} */ { chains }) => (
    Number(number) < chains.length && Number(bit) < chains[Number(number)].chips * BITS_PER_CHIP);
  return createSignalLinePlace(name, existsOn);
}

/**
 * Parses a place name; returns null for any other text.
 * @param {string} text
 * @returns {Place | null}
 */
export function parsePlace(text) {
  const name = text.trim().toLowerCase().replace(/\s+/g, " ");
  return parseRegisterPlace(name) || parseMemoryPlace(name) || parsePortPlace(name) || parseLampPlace(name);
}

/**
 * Returns the place of the accumulator for the word `A`; null for any other word. The bench does not know this name. Callers first try all
 * other meanings of the word, such as a watch name.
 * @param {string} text
 */
export function placeByAlias(text) {
  return text.trim().toLowerCase() === ACCUMULATOR_ALIAS ? parsePlace("acc") : null;
}
