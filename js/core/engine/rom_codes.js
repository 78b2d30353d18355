// Reads the bytes in ROM, and classifies opcodes.

import { ADDRESS_COUNT, PAGE_NUMBERS, PAGE_BYTES, parseRomBytes, listQueries } from "../bench/rom_bytes.js";

/** The opcodes of the instructions that use a ROM port: WRR writes to it, RDR reads it. */
export const WRR = 0xE2;
export const RDR = 0xEA;

/** @typedef {import("./engine_host.js").EngineHost} Engine */

/**
 * Returns the bytes at addresses 000 to FFF; 0 at addresses without a ROM.
 * @param {Engine} engine
 * @param {Uint8Array} file
 */
export function readRomCodes(engine, file) {
  return parseRomCodes(engine.ask(file, listQueries(PAGE_NUMBERS)).answers);
}

/**
 * Parses the answers to `list` for all pages. Returns the bytes at addresses 000 to FFF; 0 at addresses without a ROM.
 * @param {string[]} answers
 */
export function parseRomCodes(answers) {
  return Uint8Array.from(parseRomBytes(answers), (byte) => Math.max(0, byte));
}

/** @param {number} code */
export function isCall(code) {
  return code >> 4 === 0x5;
}

/** @param {number} code */
export function isReturn(code) {
  return code >> 4 === 0xC;
}

/** @param {number} code */
export function isJin(code) {
  return code >> 4 === 0x3 && code % 2 === 1;
}

/**
 * Returns the target address of the JMS or JUN at an address.
 * @param {Uint8Array} codes
 * @param {number} address
 */
export function jumpTarget(codes, address) {
  return (codes[address] % 16) * PAGE_BYTES + codes[(address + 1) % ADDRESS_COUNT];
}

/**
 * Returns whether an instruction can either jump or continue at the next address. This is true for JCN and ISZ.
 * @param {number} code
 */
export function isBranch(code) {
  return code >> 4 === 0x1 || code >> 4 === 0x7;
}

/**
 * Returns whether an instruction never continues at the next address. This is true for JUN, BBL and JIN.
 * @param {number} code
 */
export function neverContinues(code) {
  return code >> 4 === 0x4 || isReturn(code) || isJin(code);
}

/**
 * Returns the length of an instruction in words. JUN, JMS, JCN, ISZ and FIM have two words.
 * @param {number} code
 */
export function instructionWords(code) {
  const kind = code >> 4;
  return isBranch(code) || isCall(code) || kind === 0x4 || (kind === 0x2 && code % 2 === 0) ? 2 : 1;
}

/**
 * Returns the duration of an instruction in cycles. Instructions with two words, and FIN, take two cycles.
 * @param {number} code
 */
export function instructionCycles(code) {
  return instructionWords(code) === 2 || (code >> 4 === 0x3 && code % 2 === 0) ? 2 : 1;
}
