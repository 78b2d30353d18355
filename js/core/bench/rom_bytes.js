// Reads the bytes of ROM from the answers to `list`.

import { readListing } from "./answers.js";
import { LAST_ADDRESS, hex, indices } from "./numbers.js";

/** The number of addresses in ROM. */
export const ADDRESS_COUNT = LAST_ADDRESS + 1;
/** The number of bytes in a ROM page. */
export const PAGE_BYTES = 256;
/** The numbers of all ROM pages. A page has the size of a ROM chip. */
export const PAGE_NUMBERS = indices(ADDRESS_COUNT / PAGE_BYTES);
/** The maximum number of lines in the answer to `list`. */
export const MAX_LISTING_LINES = 256;
/** The value of a byte whose address is not in the listing. */
export const NO_BYTE = -1;

/**
 * Returns the `list` queries for the given ROM pages.
 * @param {number[]} pages
 */
export function listQueries(pages) {
  return pages.map((page) => `list 0x${hex(page * PAGE_BYTES, 3)} ${PAGE_BYTES}\n`).join("");
}

/**
 * Parses the answers to `list`. Returns the bytes by address; `NO_BYTE` for an address that is not in the listing.
 * @param {string[]} answers
 */
export function parseRomBytes(answers) {
  const bytes = new Int16Array(ADDRESS_COUNT).fill(NO_BYTE);
  for (const { address, line } of readListing(answers)) {
    bytes[address] = parseInt(line.slice(4, 6), 16);
    if (line[7] !== " ") bytes[address + 1] = parseInt(line.slice(7, 9), 16);
  }
  return bytes;
}
