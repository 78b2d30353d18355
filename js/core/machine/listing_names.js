// Adds program names to the lines of a listing.

import { hex } from "../bench/numbers.js";
import { lineReference } from "../../words/stops.js";

/**
 * @typedef {import("../bench/answers.js").ListingLine} ListingLine
 * @typedef {import("./source_map.js").SourceMap} SourceMap
 *
 * The fields of a listing line. `firstAddress`: its address as text; `secondAddress`: the address of its second byte ("" for none).
 * `bytes`: the address and the bytes as in the bench's answer; `labels`: the labels at its address; `source`: its source line ("" for
 * none).
 * @typedef {{ address: number, firstAddress: string, secondAddress: string, bytes: string, labels: string, instruction: string,
 *   source: string }} NamedLine
 */

/** Matches an instruction whose last operand is an address. */
const TARGET_INSTRUCTION = /^(JUN|JMS|JCN|ISZ) .*0x([0-9A-F]{3})$/;
/** Columns in a listing line: the end of the bytes, the start of the second byte, and the start of the instruction. */
const BYTES_END = 9;
const SECOND_BYTE_COLUMN = 7;
const INSTRUCTION_COLUMN = 10;
const COLON_LENGTH = 1;

/**
 * Returns the fields of a listing line, with the program names for its addresses.
 * @param {ListingLine} listingLine
 * @param {SourceMap | null} map
 * @returns {NamedLine}
 */
export function addLineNames({ address, line }, map) {
  const [bytes, instruction] = [line.slice(0, BYTES_END), line.slice(INSTRUCTION_COLUMN)];
  const secondAddress = bytes.slice(SECOND_BYTE_COLUMN).trim() === "" ? "" : hex(address + 1, 3);
  const fields = { address, firstAddress: hex(address, 3), secondAddress, bytes, labels: "", instruction, source: "" };
  if (!map) return fields;
  fields.labels = map.labelsAt(address).map((label) => `${label}:`).join(" ");
  const lineNumber = map.lineOf(address);
  if (lineNumber === 0) return fields;
  const source = map.sourceLines[lineNumber - 1];
  fields.instruction = replaceTarget(fields.instruction, source, map);
  fields.source = `${lineReference(lineNumber)}: ${source.trim().replace(/\s+/g, " ")}`;
  return fields;
}

/**
 * Replaces the target address of an instruction with the label of the target, if it has one. If the target has several labels, uses the
 * label in the source line.
 * @param {string} instruction
 * @param {string} source
 * @param {SourceMap} map
 */
function replaceTarget(instruction, source, map) {
  const match = TARGET_INSTRUCTION.exec(instruction);
  if (!match) return instruction;
  const labels = map.labelsAt(parseInt(match[2], 16));
  if (labels.length === 0) return instruction;
  const sourceWords = source.split(/[^A-Za-z0-9_]+/);
  const label = labels.find((candidate) => sourceWords.includes(candidate)) || labels[0];
  return instruction.replace(/0x[0-9A-F]{3}$/, label);
}

/**
 * Returns the maximum width of the labels at one address, including colons and blanks; 0 if there are no labels.
 * @param {SourceMap | null} map
 */
export function labelsWidth(map) {
  const lengths = map ? [...map.labels.values()].map((labels) => labels.join(": ").length + COLON_LENGTH) : [];
  return Math.max(0, ...lengths);
}
