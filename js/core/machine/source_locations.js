// Formats an address with its label and its source line: `014 (wait), line 22: wait: FIM P1, time`.

import { hex } from "../bench/numbers.js";
import { locationInSource, notInSourceMessage } from "../../words/machine.js";

/** @typedef {import("./source_map.js").SourceMap} SourceMap */

/**
 * Returns an address with its name and source line.
 * @param {SourceMap} map
 * @param {{ lines: string[], linesBefore: number }} source the source lines, and the number of lines before them in the file
 * @param {number} address
 */
export function formatSourceLocation(map, { lines, linesBefore }, address) {
  const line = map.lineOf(address);
  const digits = hex(address, 3);
  if (line === 0) return notInSourceMessage(digits);
  const name = map.nameOf(address);
  const code = lines[line - 1].replace(/;.*/, "").replace(/[ \t]+/g, " ").trim();
  return locationInSource(name === "" ? digits : `${digits} (${name})`, line + linesBefore, code);
}
