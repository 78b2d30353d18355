// Handles the requests `readMemory` and `writeMemory`. A memory reference is a number:
//
//     0x000 + A                          the ROM byte at address A
//     0x10000 + 0x100 * B + S            the RAM character of bank B that the SRC byte S selects
//     0x20000 + 0x100 * B + 4 * R + K    status character K of register R of bank B

import { readRam, parseRefusal } from "../bench/answers.js";
import { LAST_ADDRESS, hex, parseNumber } from "../bench/numbers.js";
import { STATUS_CHARACTERS_PER_REGISTER, parsePlace } from "../conditions/places.js";
import { readRomBytes } from "./disassembly.js";
import { fail, optionalFlag, requireNumber, requireText } from "./dap_protocol.js";
import * as say from "../../words/adapter.js";

/**
 * @typedef {import("../debug/debug_session.js").DebugSession} DebugSession
 *
 * A memory range: ROM, the RAM characters of a bank, or the status characters of a bank. `start` is the memory reference of its first byte.
 * Each element of `bytes` is a ROM byte or a character. `placeAt` returns the place in the `poke` line that writes the byte at an index.
 * @typedef {{ start: number, bytes: Uint8Array, placeAt: (index: number) => string }} MemoryRange
 *
 * The location that a request names: a memory range, and an index in this range (`from`). The index can be out of bounds.
 * @typedef {{ range: MemoryRange, from: number }} RequestedLocation
 */

const [CHARACTERS_BASE, STATUS_BASE, BANK_SIZE] = [0x10000, 0x20000, 0x100];
const BANK_COUNT = 8;

/**
 * Formats a number as a memory reference.
 * @param {number} number
 * @returns {string}
 */
export function formatReference(number) {
  return number < 0 ? `-${formatReference(-number)}` : `0x${hex(number, 3)}`;
}

/** @type {(bank: number) => string} returns the memory reference of a bank's first RAM character */
export const bankReference = (bank) => formatReference(CHARACTERS_BASE + BANK_SIZE * bank);

/**
 * Returns the number in the memory reference of a RAM character or a status character; -1 for any other place.
 * @param {string} name
 */
export function referenceNumberForPlace(name) {
  const place = parsePlace(name);
  const [, bank, byte] = /^ram\.(\d)\.(0x..)$/.exec(place ? place.name : "") || [];
  if (bank) return CHARACTERS_BASE + BANK_SIZE * Number(bank) + Number(byte);
  const [, statusBank, register, character] = /^st\.(\d)\.(\d+)\.(\d)$/.exec(place ? place.name : "") || [];
  if (!statusBank) return -1;
  return STATUS_BASE + BANK_SIZE * Number(statusBank) + STATUS_CHARACTERS_PER_REGISTER * Number(register) + Number(character);
}

/**
 * Parses a memory reference and returns its number.
 * @param {string} reference a number, a bank such as `ram.0`, a RAM or status character, or a label
 * @param {(reference: string) => number} addressOf returns the ROM address of a label or number; throws AdapterError if there is none
 */
function parseReference(reference, addressOf) {
  const [, bank] = /^ram\.([0-7])$/.exec(reference) || [];
  if (bank) return CHARACTERS_BASE + BANK_SIZE * Number(bank);
  const [address, number] = [parseNumber(reference), referenceNumberForPlace(reference)];
  if (number >= 0) return number;
  return address >= CHARACTERS_BASE ? address : addressOf(reference);
}

/**
 * Returns the memory range that contains a memory reference; null if the board does not have this memory.
 * @param {DebugSession} session
 * @param {number} number the memory reference
 * @returns {MemoryRange | null}
 */
function findMemoryRange(session, number) {
  if (number <= LAST_ADDRESS) return { start: 0, bytes: readRomBytes(session), placeAt: (index) => `rom.${index}` };
  const isStatus = number >= STATUS_BASE;
  const bank = Math.floor((number - (isStatus ? STATUS_BASE : CHARACTERS_BASE)) / BANK_SIZE);
  if (bank < 0 || bank >= BANK_COUNT) return null;
  const { registers } = readRam(session.debugger.session.ask(`ram ${bank}\n`));
  if (registers.size === 0) return null;
  const digits = [...registers.values()].map(({ characters, status }) => (isStatus ? status : characters)).join("");
  const bytes = Uint8Array.from(digits, (digit) => parseInt(digit, 16));
  const start = (isStatus ? STATUS_BASE : CHARACTERS_BASE) + BANK_SIZE * bank;
  const placeAt = (/** @type {number} */ index) => (
    isStatus
      ? `st.${bank}.${Math.floor(index / STATUS_CHARACTERS_PER_REGISTER)}.${index % STATUS_CHARACTERS_PER_REGISTER}`
      : `ram.${bank}.${index}`);
  return { start, bytes, placeAt };
}

/**
 * Returns the location that a request names; throws AdapterError if the board does not have this memory.
 * @param {any} args
 * @param {DebugSession} session
 * @param {(reference: string) => number} addressOf
 * @returns {RequestedLocation}
 */
function readRequestedLocation(args, session, addressOf) {
  const reference = requireText(args, "memoryReference").trim();
  const number = parseReference(reference, addressOf);
  const range = findMemoryRange(session, number) || fail(say.boardHasNo(reference));
  return { range, from: number - range.start + requireNumber(args, "offset", 0) };
}

/**
 * Handles the `readMemory` request. Throws AdapterError if the board does not have this memory, or if the count is negative.
 * @param {any} args
 * @param {DebugSession} session
 * @param {(reference: string) => number} addressOf
 */
export function readMemory(args, session, addressOf) {
  const { range: { start, bytes }, from } = readRequestedLocation(args, session, addressOf);
  const count = requireNumber(args, "count");
  if (count < 0) fail(say.COUNT_RANGE);
  const address = formatReference(start + from);
  if (from < 0 || from >= bytes.length) return { address, unreadableBytes: count };
  const requestedBytes = bytes.subarray(from, Math.min(bytes.length, from + count));
  const missingCount = count - requestedBytes.length;
  return { address, data: btoa(String.fromCharCode(...requestedBytes)), ...(missingCount > 0 ? { unreadableBytes: missingCount } : {}) };
}

/**
 * Handles the `writeMemory` request. If the bench rejects a byte, writes no byte and throws AdapterError. With `allowPartial`, skips the
 * bytes outside the memory range; otherwise such bytes are an error.
 * @param {any} args
 * @param {DebugSession} session
 * @param {(reference: string) => number} addressOf
 * @returns {Promise<{ offset: number, bytesWritten: number }>}
 */
export async function writeMemory(args, session, addressOf) {
  const { range: { bytes, placeAt }, from } = readRequestedLocation(args, session, addressOf);
  const newBytes = decodeBase64(requireText(args, "data"));
  const [first, end] = [Math.max(0, from), Math.min(bytes.length, from + newBytes.length)];
  const isInRange = first === from && end === from + newBytes.length;
  if (!isInRange && !optionalFlag(args, "allowPartial", false)) fail(say.OUTSIDE_OF_MEMORY);
  const bytesInRange = end > first ? newBytes.subarray(first - from, end - from) : new Uint8Array(0);
  const lines = [...bytesInRange].map((byte, index) => `poke ${placeAt(first + index)} ${byte}\n`).join("");
  const workerSession = session.debugger.session;
  // `ask` executes the lines on a copy of the session. If the bench rejects a line there, nothing is written.
  const answers = lines === "" ? [] : workerSession.ask(lines);
  const rejectedIndex = answers.findIndex((answer) => parseRefusal(answer));
  if (rejectedIndex >= 0) fail(say.benchAnswered(lines.split("\n")[rejectedIndex], answers[rejectedIndex]));
  if (lines !== "") await workerSession.serve(lines, async () => true);
  return { offset: first - from, bytesWritten: bytesInRange.length };
}

/** @param {string} text */
function decodeBase64(text) {
  if (!/^[A-Za-z0-9+/]*={0,2}$/.test(text) || text.length % 4 !== 0) fail(say.BASE_64_REQUIRED);
  return Uint8Array.from(atob(text), (letter) => letter.charCodeAt(0));
}
