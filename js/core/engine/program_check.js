// Compares a program text with ROM. A separate session with all 16 ROMs assembles the text, and this module compares the bytes.

import { readBoard, readMap, parseRefusal } from "../bench/answers.js";
import { matchAnswers, readInputs } from "../bench/inputs.js";
import { indices } from "../bench/numbers.js";
import { ADDRESS_COUNT, NO_BYTE, PAGE_NUMBERS, PAGE_BYTES, parseRomBytes, listQueries } from "../bench/rom_bytes.js";
import { MAX_SENT_LENGTH, TEXT_TOO_LONG } from "../text/sendable_text.js";

/**
 * @typedef {import("../bench/answers.js").Refusal} Refusal
 * @typedef {import("./engine_host.js").EngineHost} Engine
 *
 * An assembled program: its text, the answer to `map`, the error in the text (null for none), and the bytes by address (-1 for no byte).
 * @typedef {{ text: string, map: string[], refusal: Refusal | null, bytes: Int16Array }} Program
 *
 * The first address at which ROM differs from the program; `hasRom` is false if the board has no ROM at that address.
 * @typedef {{ address: number, hasRom: boolean }} Difference
 *
 * The `map` answer for a program text, the error in the text (null for none), and its first difference from ROM (null for none).
 * @typedef {{ map: string[], refusal: Refusal | null, difference: Difference | null }} ProgramCheck
 */

/** The lines that wire a board with all 16 ROMs. */
export const ALL_ROMS = `wire\n${PAGE_NUMBERS.map((chip) => `[[rom]]\nchip = ${chip}\nport = "0000"\n`).join("")}.\n`;

/**
 * Returns the reason why a program text cannot be sent to the bench, or null if it can be sent. Either the text is too long, or one of its
 * lines is only a dot, which would end the text. A line with only a dot has no error number, so `number` is 0.
 * @param {string} text
 * @returns {Refusal | null}
 */
export function findSendingError(text) {
  if (text.length > MAX_SENT_LENGTH) return { number: TEXT_TOO_LONG, line: 0 };
  const dotLine = text.split("\n").findIndex((line) => line === "." || line === ".\r");
  return dotLine < 0 ? null : { number: 0, line: dotLine + 1 };
}

/**
 * Assembles a program text.
 * @param {Engine} engine
 * @param {string} text
 * @returns {Program}
 */
export function assembleText(engine, text) {
  const sendingError = findSendingError(text);
  if (sendingError) return { text, map: [], refusal: sendingError, bytes: parseRomBytes([]) };
  const textWithLineEnd = text === "" || text.endsWith("\n") ? text : `${text}\n`;
  const lines = `${ALL_ROMS}asm\n${textWithLineEnd}.\nmap\n${textWithLineEnd}.\n${listQueries(PAGE_NUMBERS)}`;
  const [, asmAnswer, map, ...lists] = matchAnswers(readInputs(lines), engine.ask(engine.begin(), lines).answers);
  const refusal = parseRefusal(asmAnswer[0]) || parseRefusal(map[0]);
  const bytes = parseRomBytes(refusal ? [] : lists.flat());
  const isFilled = findFilledAddresses(map);
  return { text, map: refusal ? [] : map, refusal, bytes: bytes.map((byte, address) => (isFilled[address] ? byte : NO_BYTE)) };
}

/**
 * Returns an array with 1 for each address at which a program has a byte, otherwise 0.
 * @param {string[]} map the answer to `map`
 */
function findFilledAddresses(map) {
  const isFilled = new Uint8Array(ADDRESS_COUNT);
  for (const { address, size } of readMap(map).lines) isFilled.fill(1, address, address + size);
  return isFilled;
}

/**
 * Returns the program size in bytes, and the addresses outside the program at which ROM is not 0.
 * @param {Engine} engine
 * @param {Uint8Array} file
 * @param {Program} program
 * @returns {import("../text/asm_texts.js").Leftovers}
 */
export function findLeftovers(engine, file, program) {
  const bytes = parseRomBytes(engine.ask(file, listQueries(PAGE_NUMBERS)).answers);
  const remainingAddresses = indices(ADDRESS_COUNT).filter((address) => program.bytes[address] === NO_BYTE && bytes[address] > 0);
  return { size: program.bytes.filter((byte) => byte !== NO_BYTE).length, remainingAddresses };
}

/**
 * Returns the first difference between ROM and a program; null if ROM contains all bytes of the program.
 * @param {Engine} engine
 * @param {Uint8Array} file
 * @param {string[]} board the answer to `board`
 * @param {Program} program
 * @returns {Difference | null}
 */
export function findDifference(engine, file, board, program) {
  const bytesInPage = (/** @type {number} */ page) => program.bytes.subarray(page * PAGE_BYTES, (page + 1) * PAGE_BYTES);
  const pages = PAGE_NUMBERS.filter((page) => bytesInPage(page).some((byte) => byte !== NO_BYTE));
  if (pages.length === 0) return null;
  const roms = new Set(readBoard(board).roms.map(({ chip }) => chip));
  const bytes = parseRomBytes(engine.ask(file, listQueries(pages)).answers);
  const hasRom = (/** @type {number} */ address) => roms.has(Math.floor(address / PAGE_BYTES));
  const address = program.bytes.findIndex((byte, index) => byte !== NO_BYTE && (byte !== bytes[index] || !hasRom(index)));
  return address < 0 ? null : { address, hasRom: hasRom(address) };
}
