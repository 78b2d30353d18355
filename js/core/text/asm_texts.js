// Creates the texts for the `asm` commands that load bytes or a program into ROM. Each text is as long as possible, so that few commands
// are needed.

import { formatQuantity, hex, indices } from "../bench/numbers.js";
import { PAGE_NUMBERS, PAGE_BYTES } from "../bench/rom_bytes.js";
import { MAX_SENT_LENGTH } from "./sendable_text.js";
import * as say from "../../words/text.js";

/**
 * The size of a program in bytes, and the addresses outside the program at which ROM still contains a byte other than 0.
 * @typedef {{ size: number, remainingAddresses: number[] }} Leftovers
 */

/** The maximum number of bytes per DB line; a line has at most 255 characters. */
const MAX_BYTES_IN_LINE = 60;
/** The maximum number of zero bytes per DB line. A zero needs only one digit, so a line has room for more zeros. */
const MAX_ZEROS_IN_LINE = 126;

/** @type {(address: number) => number} returns the ROM number for an address */
const romNumber = (address) => Math.floor(address / PAGE_BYTES);

/**
 * Groups addresses into ranges of consecutive addresses. `from` is the first address of a range, and `count` the number of its addresses.
 * @param {number[]} addresses the addresses in ascending order
 * @returns {{ from: number, count: number }[]}
 */
function groupIntoRanges(addresses) {
  /** @type {{ from: number, count: number }[]} */
  const ranges = [];
  for (const address of addresses) {
    const last = ranges[ranges.length - 1];
    if (last && last.from + last.count === address) last.count += 1;
    else ranges.push({ from: address, count: 1 });
  }
  return ranges;
}

/**
 * Returns statements that store bytes at consecutive addresses.
 * @param {number} from the first address
 * @param {number[]} bytes
 * @param {number} maxInLine the maximum number of bytes per line
 */
function formatStatements(from, bytes, maxInLine) {
  const lines = [`ORG 0x${hex(from, 3)}\n`];
  for (let index = 0; index < bytes.length; index += maxInLine) lines.push(`DB ${bytes.slice(index, index + maxInLine).join(",")}\n`);
  return lines.join("");
}

/**
 * Returns texts that store 0 at addresses, one text per range of consecutive addresses.
 * @param {number[]} addresses the addresses in ascending order
 * @returns {string[]}
 */
function createClearingTexts(addresses) {
  return groupIntoRanges(addresses).map(({ from, count }) => formatStatements(from, Array(count).fill(0), MAX_ZEROS_IN_LINE));
}

/** The number of characters that each text keeps free for the result of `formatRomStatements`. */
const RESERVED_LENGTH = PAGE_NUMBERS.length * formatStatements(0, [255], 1).length;

/**
 * Returns statements that store one byte, the last one, in each ROM to which only the other texts store bytes.
 * @param {Int16Array} bytes the bytes by address; a negative number means no byte
 * @param {Set<number>} pages the ROMs to which this text stores bytes
 */
function formatRomStatements(bytes, pages) {
  const findLastByte = (/** @type {number} */ page) => {
    let address = (page + 1) * PAGE_BYTES - 1;
    while (address >= page * PAGE_BYTES && bytes[address] < 0) address -= 1;
    return address;
  };
  const uncoveredPages = PAGE_NUMBERS.filter((page) => !pages.has(page)).map((page) => ({ page, address: findLastByte(page) }));
  return uncoveredPages.filter(({ page, address }) => address >= page * PAGE_BYTES)
    .map(({ address }) => formatStatements(address, [bytes[address]], 1)).join("");
}

/**
 * Returns the `asm` texts that store bytes in ROM. If several texts are needed, each text stores at least one byte in every ROM that any of
 * them uses. Therefore, if the board lacks one of these ROMs, the bench rejects all texts and not only some.
 * @param {Int16Array} bytes the bytes by address; a negative number means no byte
 * @returns {string[]}
 */
export function createByteTexts(bytes) {
  const lines = groupIntoRanges([...bytes.keys()].filter((address) => bytes[address] >= 0)).flatMap(({ from, count }) => {
    const lineStarts = indices(Math.ceil(count / MAX_BYTES_IN_LINE)).map((index) => from + index * MAX_BYTES_IN_LINE);
    return lineStarts.map((start) => ({ start, end: Math.min(start + MAX_BYTES_IN_LINE, from + count) }));
  }).map(({ start, end }) => {
    const text = formatStatements(start, [...bytes.subarray(start, end)], MAX_BYTES_IN_LINE);
    return { text, pages: [start, end - 1].map(romNumber) };
  });
  const wholeText = lines.map(({ text }) => text).join("");
  if (wholeText.length <= MAX_SENT_LENGTH) return [wholeText];
  /** @type {{ text: string, pages: Set<number> }[]} */
  const texts = [{ text: "", pages: new Set() }];
  for (const { text, pages } of lines) {
    if (texts[texts.length - 1].text.length + text.length > MAX_SENT_LENGTH - RESERVED_LENGTH) texts.push({ text: "", pages: new Set() });
    const last = texts[texts.length - 1];
    last.text += text;
    for (const page of pages) last.pages.add(page);
  }
  return texts.map(({ text, pages }) => text + formatRomStatements(bytes, pages));
}

/**
 * Returns the `asm` texts that load a program into ROM and store 0 at other addresses. If one text is not enough, the last text contains
 * the program.
 * @param {string} program the program text as sent to the bench
 * @param {number[]} addresses the addresses at which to store 0, in ascending order
 * @returns {string[]}
 */
export function createProgramTexts(program, addresses) {
  const texts = [program];
  for (const piece of createClearingTexts(addresses)) {
    // The program comes first in its text, so that its line numbers do not change.
    if (texts[0].length + piece.length <= MAX_SENT_LENGTH) texts[0] += piece;
    else texts.unshift(piece);
  }
  return texts;
}

/**
 * Returns the message that the page shows after it has assembled a program. The message also mentions the bytes outside the program that
 * remain in ROM.
 * @param {Leftovers} leftovers
 * @param {string} counter the program counter, as text
 */
export function describeAssembledProgram({ size, remainingAddresses: remaining }, counter) {
  const first = remaining.length > 0 ? `0x${hex(remaining[0], 3)}` : "";
  const remainingNote = say.bytesRemainingMessage(formatQuantity(remaining.length, "byte"), remaining.length === 1, first);
  return say.bytesAssembledMessage(formatQuantity(size, "byte"), remaining.length > 0 ? ` ${remainingNote}` : "", counter);
}
