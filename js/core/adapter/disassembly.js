// Reads ROM for the requests `disassemble` and `readMemory`: the instructions near an address, and the bytes at all addresses.

import { readListing } from "../bench/answers.js";
import { LAST_ADDRESS, indices } from "../bench/numbers.js";
import { MAX_LISTING_LINES } from "../bench/rom_bytes.js";

/**
 * @typedef {import("../debug/debug_session.js").DebugSession} DebugSession
 * @typedef {import("../bench/answers.js").ListingLine} ListingLine
 *
 * A row of the disassembly. `address` can be outside ROM. `bytes` are the bytes in hexadecimal, and `text` is the instruction as text.
 * `line` is the source line (0 for none), and `name` the label ("" for none).
 * @typedef {{ address: number, bytes: string, text: string, line: number, name: string }} InstructionRow
 */

/** @type {(listed: ListingLine) => number} returns the address of the instruction after a listed instruction */
const nextAddress = ({ address, line }) => address + (line.slice(7, 9).trim() === "" ? 1 : 2);

/**
 * Returns the instructions in a range. The listing starts at `from`, even if this is the address of the second byte of an instruction.
 * @param {DebugSession} session
 * @param {number} from the first address
 * @param {number} to the address after the range
 */
function listInstructions(session, from, to) {
  /** @type {ListingLine[]} */
  const instructions = [];
  for (let address = from; address < to;) {
    const batch = readListing(session.debugger.session.ask(`list ${address} ${MAX_LISTING_LINES}\n`));
    instructions.push(...batch.filter((instruction) => instruction.address < to));
    address = nextAddress(batch[batch.length - 1]);
  }
  return instructions;
}

/**
 * Returns `count` rows. The first row is `offset` instructions after the instruction at `address`; a negative offset counts back. A row
 * outside ROM has only an address, which is negative before ROM.
 * @param {DebugSession} session
 * @param {number} address
 * @param {number} offset
 * @param {number} count
 * @returns {InstructionRow[]}
 */
export function listInstructionRows(session, address, offset, count) {
  // An instruction has at most two bytes. If the source map has an instruction within four bytes after `start`, the listing is aligned to
  // it. No row then starts at the second byte of an instruction.
  const start = Math.max(0, address + 2 * Math.min(0, offset) - 1);
  const candidates = indices(4).map((distance) => start + distance);
  const alignedStart = candidates.find((candidate) => candidate <= address && session.map.beginsInstruction(candidate)) ?? start;
  const instructionsIn = (/** @type {number} */ from, /** @type {number} */ to) => (
    listInstructions(session, from, to).filter((instruction) => nextAddress(instruction) <= to));
  const instructionsBefore = [...instructionsIn(start, alignedStart), ...instructionsIn(alignedStart, address)];
  const instructionsAfter = listInstructions(session, address, Math.min(LAST_ADDRESS + 1, address + 2 * Math.max(0, offset + count)));
  const instructions = [...instructionsBefore, ...instructionsAfter];
  return indices(count).map((row) => {
    const index = instructionsBefore.length + offset + row;
    const instruction = instructions[index];
    if (instruction) return instructionRow(instruction, session);
    return emptyRow(index < 0 ? index : LAST_ADDRESS + 1 + index - instructions.length);
  });
}

/**
 * Returns the row of a listed instruction.
 * @param {ListingLine} listed
 * @param {DebugSession} session
 * @returns {InstructionRow}
 */
function instructionRow({ address, line }, { map }) {
  const sourceLine = map.lineOf(address);
  return { address, bytes: line.slice(4, 9).trim(), text: line.slice(10).trim(), line: sourceLine, name: map.labelsAt(address)[0] || "" };
}

/**
 * Returns a row outside ROM.
 * @param {number} address
 * @returns {InstructionRow}
 */
function emptyRow(address) {
  return { address, bytes: "", text: "", line: 0, name: "" };
}

/**
 * Returns the bytes of ROM, by address.
 * @param {DebugSession} session
 */
export function readRomBytes(session) {
  const bytes = new Uint8Array(LAST_ADDRESS + 1);
  for (const { address, line } of listInstructions(session, 0, LAST_ADDRESS + 1)) {
    line.slice(4, 9).trim().split(" ").forEach((byte, offset) => {
      bytes[address + offset] = parseInt(byte, 16);
    });
  }
  return bytes;
}
