// Assembles the source text of a session's program, and compares the bytes with ROM. If they are equal, the names and lines of the text
// describe the program in ROM.

import { hex } from "../bench/numbers.js";
import { SourceMap } from "../machine/source_map.js";
import { findTextErrors } from "../testing/test_preparation.js";
import { sentText } from "../text/sendable_text.js";
import { assembleText } from "./program_check.js";

/**
 * @typedef {import("./engine_host.js").EngineHost} EngineHost
 * @typedef {import("../testing/test_preparation.js").ProjectTextError} ProjectTextError
 *
 * The first difference between ROM and the program: the address, the byte in ROM (`romByte`), the source line, and the byte that this
 * line assembles to (`sourceByte`).
 * @typedef {{ address: string, romByte: string, line: number, sourceByte: string }} ByteDifference
 *
 * The source text of a session's program, compared with ROM. `errors` are the errors in the text, `difference` is the first difference from
 * ROM (null for none), and `map` is the source map.
 * @typedef {{ errors: ProjectTextError[], difference: ByteDifference | null, map: SourceMap }} SessionProgram
 */

/**
 * Returns the first byte in ROM that differs from the program; null if there is none.
 * @param {Uint8Array} codes the bytes in ROM
 * @param {Int16Array} bytes the program bytes by address; negative for no byte
 * @param {SourceMap} map
 * @returns {ByteDifference | null}
 */
function findFirstDifference(codes, bytes, map) {
  const address = bytes.findIndex((byte, index) => byte >= 0 && byte !== codes[index]);
  if (address < 0) return null;
  return { address: hex(address, 3), romByte: hex(codes[address], 2), line: map.lineOf(address), sourceByte: hex(bytes[address], 2) };
}

/**
 * Assembles a program text. Returns its source map and its bytes by address, or the errors.
 * @param {EngineHost} engine
 * @param {string} text
 * @returns {{ errors: ProjectTextError[], map: SourceMap, bytes: Int16Array }}
 */
export function assembleSource(engine, text) {
  const createErrorResult = (/** @type {ProjectTextError[]} */ errors) => ({ errors, map: new SourceMap([], ""), bytes: new Int16Array() });
  const textErrors = findTextErrors("program", text);
  if (textErrors.length > 0) return createErrorResult(textErrors);
  const sentSource = sentText(text, ";");
  const { map, refusal, bytes } = assembleText(engine, sentSource);
  if (refusal) return createErrorResult([{ text: "program", ...refusal, words: "" }]);
  return { errors: [], map: new SourceMap(map, sentSource), bytes };
}

/**
 * Assembles a program text and compares it with ROM.
 * @param {EngineHost} engine
 * @param {Uint8Array} codes the bytes in ROM
 * @param {string} text
 * @returns {SessionProgram}
 */
export function compareWithRom(engine, codes, text) {
  const { errors, map, bytes } = assembleSource(engine, text);
  return { errors, difference: errors.length > 0 ? null : findFirstDifference(codes, bytes, map), map };
}
