// Creates the inlay hints for a program. An editor shows the hints inside the lines: the address and the cycles at the end of a line, and
// the values after names.

import { hex } from "../bench/numbers.js";
import { splitStatement } from "../text/assembly.js";
import * as say from "../../words/server.js";

/**
 * @typedef {import("../machine/source_map.js").SourceMap} SourceMap
 * @typedef {import("./language.js").InlayHint} InlayHint
 * @typedef {import("./lsp_protocol.js").Range} Range
 */

/**
 * Returns the text of the hint for a program name, which shows the value of the name; "" for any other word.
 * @param {SourceMap} map
 * @param {string} word
 */
function formatNameHint(map, word) {
  const name = map.names.get(word);
  if (!name) return "";
  return `= ${name.isLabel ? `0x${hex(name.value, 3)}` : name.value}`;
}

/**
 * Returns the hints for one line.
 * @param {string} text
 * @param {number} line the line number from 0
 * @param {SourceMap} map
 * @param {(mnemonic: string) => string} cyclesOf returns the cycles of an instruction, "" for any other word
 * @returns {InlayHint[]}
 */
function createLineHints(text, line, map, cyclesOf) {
  const { head, operands, defines } = splitStatement(text);
  if (defines) return [];
  const hintAt = (/** @type {number} */ character, /** @type {string} */ label) => (
    { position: { line, character }, label, paddingLeft: true });
  const valueHints = operands.map(({ text: word, to }) => hintAt(to, formatNameHint(map, word))).filter(({ label }) => label !== "");
  const address = map.addressOf(line + 1);
  if (address === undefined || !head) return valueHints;
  const cycles = cyclesOf(head.text.toUpperCase());
  const hintText = cycles ? say.hintOfInstruction(hex(address, 3), cycles) : say.hintOfData(hex(address, 3), map.sizes[line + 1]);
  return [...valueHints, hintAt(text.length, hintText)];
}

/**
 * Returns the hints for the lines in a range.
 * @param {string[]} lines
 * @param {SourceMap} map
 * @param {(mnemonic: string) => string} cyclesOf returns the cycles of an instruction, "" for any other word
 * @param {Range} range
 * @returns {InlayHint[]}
 */
export function createHints(lines, map, cyclesOf, { start, end }) {
  return lines.slice(start.line, end.line + 1).flatMap((text, index) => createLineHints(text, start.line + index, map, cyclesOf));
}
