// Creates the listing of a program, as assemblers usually print it: each source line with its address and bytes, followed by the names
// with their values.

import { hex, indices } from "../bench/numbers.js";

/** @typedef {import("./source_map.js").SourceMap} SourceMap */

/** The column at which the source starts, after the address and the bytes. */
const SOURCE_COLUMN = 17;
/** The maximum number of bytes in a row of the listing. */
const BYTES_IN_ROW = 4;
const TAB = " ".repeat(8);
const LABEL_LINE = /^[A-Za-z_]\w*:$/;
const NAME_DEFINITION = /^([A-Za-z_]\w*)=/;

/** @type {(beforeSource: string, source: string) => string} returns a row without trailing blanks */
const formatRow = (beforeSource, source) => `${beforeSource.padEnd(SOURCE_COLUMN)}${source}`.replace(/ +$/, "");

/**
 * Returns the listing rows for a source line with bytes. The first row contains the source.
 * @param {number} address
 * @param {number[]} bytes
 * @param {string} source
 */
function formatByteRows(address, bytes, source) {
  return indices(Math.ceil(bytes.length / BYTES_IN_ROW)).map((row) => {
    const rowBytes = bytes.slice(BYTES_IN_ROW * row, BYTES_IN_ROW * (row + 1)).map((byte) => ` ${hex(byte, 2)}`);
    return formatRow(`${hex(address + BYTES_IN_ROW * row, 3)}${rowBytes.join("")}`, row === 0 ? source : "");
  });
}

/**
 * Returns the text before a source line without bytes: the address for a line with only a label, the value for the definition of a name,
 * otherwise "".
 * @param {string} line
 * @param {number} address
 * @param {SourceMap} map
 */
function formatTextBeforeSource(line, address, map) {
  const code = line.replace(/;.*/, "").replace(/[ \t]/g, "");
  if (LABEL_LINE.test(code)) return hex(address, 3);
  const [, name = ""] = NAME_DEFINITION.exec(code) || [];
  return name === "" ? "" : `  = ${hex(map.findValue(name) || 0, 3)}`;
}

/**
 * Returns the listing rows for all source lines.
 * @param {string} text the source text
 * @param {SourceMap} map
 * @param {Int16Array} bytes the bytes, by address
 */
function formatSourceRows(text, map, bytes) {
  return text.replace(/\n$/, "").split("\n").flatMap((line, index) => {
    const source = line.replace(/\t/g, TAB);
    const address = map.addressOf(index + 1);
    if (address === undefined) return [formatRow(formatTextBeforeSource(line, map.addresses[index + 1], map), source)];
    return formatByteRows(address, [...bytes.subarray(address, address + map.sizes[index + 1])], source);
  });
}

/**
 * Returns the program names with their values, in alphabetical order.
 * @param {SourceMap} map
 * @param {boolean} onlyLabels true to return only labels
 */
export function programNames(map, onlyLabels) {
  return [...map.names.values()].filter(({ isLabel }) => isLabel || !onlyLabels)
    .map(({ name, value }) => ({ name, value: hex(value, 3) }))
    .sort((one, other) => (one.name < other.name ? -1 : 1));
}

/**
 * Returns the lines of a program listing.
 * @param {string} text the source text
 * @param {SourceMap} map
 * @param {Int16Array} bytes the bytes, by address
 */
export function programListing(text, map, bytes) {
  const nameRows = programNames(map, false).map(({ name, value }) => formatRow(name, value));
  return [...formatSourceRows(text, map, bytes), ...(nameRows.length > 0 ? ["", ...nameRows] : [])];
}
