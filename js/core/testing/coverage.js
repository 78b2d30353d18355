// Computes the coverage of a program from recorded counts: how often each line ran, and in which directions each conditional jump went.

import { formatTenths } from "../bench/numbers.js";
import { isBranch, isCall, jumpTarget } from "../engine/rom_codes.js";
import * as say from "../../words/testing.js";

/**
 * @typedef {import("../machine/source_map.js").SourceMap} SourceMap
 * @typedef {import("./recorders.js").ExecutionRecorder} ExecutionRecorder
 *
 * The coverage of a line with an instruction. `count` is how often the instruction ran. `isJump` is true for a conditional jump, and
 * `jumpCount` is how often it jumped (0 for any other instruction).
 * @typedef {{ line: number, count: number, isJump: boolean, jumpCount: number }} LineCoverage
 *
 * A range of consecutive instruction lines that never ran. `from` and `to` are its first and last line number.
 * @typedef {{ from: number, to: number }} LineRange
 *
 * A label that a JMS calls. `line` is the line number of the label, and `count` is how often the instruction at the label ran.
 * @typedef {{ label: string, line: number, count: number }} Subroutine
 *
 * The coverage of a program. `instructions` and `directions` are the total numbers of instructions and branch directions.
 * `instructionsRun` and `directionsRun` are the numbers of executed instructions and of directions taken. `unexecutedRanges` lists the
 * ranges of lines that never ran.
 * @typedef {{ lines: LineCoverage[], instructions: number, instructionsRun: number, directions: number, directionsRun: number,
 *   unexecutedRanges: LineRange[], subroutines: Subroutine[] }} Coverage
 */

/**
 * Returns the coverage of each line with an instruction. A data line (DB) counts as an instruction if it ran.
 * @param {ExecutionRecorder} recorder
 * @param {SourceMap} map
 * @returns {LineCoverage[]}
 */
function listCoveredLines({ codes, startCounts, jumpCounts }, map) {
  /** @type {LineCoverage[]} */
  const lines = [];
  for (let line = 1; line <= map.lineCount; line++) {
    const address = map.addressOf(line);
    if (address === undefined || !(map.beginsInstruction(address) || startCounts[address] > 0)) continue;
    const isJump = map.sizes[line] === 2 && isBranch(codes[address]);
    lines.push({ line, count: startCounts[address], isJump, jumpCount: isJump ? jumpCounts[address] : 0 });
  }
  return lines;
}

/**
 * Returns the labelled subroutines that the JMS instructions in `lines` call, in ascending address order.
 * @param {ExecutionRecorder} recorder
 * @param {SourceMap} map
 * @param {LineCoverage[]} lines
 */
function findSubroutines({ codes, startCounts }, map, lines) {
  const callAddresses = lines.map(({ line }) => map.addresses[line]).filter((address) => isCall(codes[address]));
  const targets = [...new Set(callAddresses.map((address) => jumpTarget(codes, address)))].sort((one, other) => one - other);
  return targets.filter((address) => map.labels.has(address)).map((address) => {
    const [label] = map.labelsAt(address);
    return { label, line: map.lineOfLabel(label), count: startCounts[address] };
  });
}

/**
 * Returns the coverage of a program.
 * @param {ExecutionRecorder} recorder
 * @param {SourceMap} map
 * @returns {Coverage}
 */
export function computeCoverage(recorder, map) {
  const lines = listCoveredLines(recorder, map);
  const jumps = lines.filter(({ isJump }) => isJump);
  /** @type {LineRange[]} */
  const unexecutedRanges = [];
  let isInRange = false;
  for (const { line, count } of lines) {
    if (count === 0 && isInRange) unexecutedRanges[unexecutedRanges.length - 1].to = line;
    else if (count === 0) unexecutedRanges.push({ from: line, to: line });
    isInRange = count === 0;
  }
  return {
    lines, unexecutedRanges,
    subroutines: findSubroutines(recorder, map, lines),
    instructions: lines.length,
    instructionsRun: lines.filter(({ count }) => count > 0).length,
    directions: 2 * jumps.length,
    directionsRun: jumps.reduce((sum, { jumpCount, count }) => sum + Number(jumpCount > 0) + Number(count > jumpCount), 0),
  };
}

/**
 * Returns a coverage summary such as `20 of 21 instructions were run (95.2 %)`.
 * @param {Coverage} coverage
 */
export function formatCoverageSummary({ instructions, instructionsRun, directions, directionsRun }) {
  /** @type {(part: number, total: number) => string} */
  const formatPercent = (part, total) => (total > 0 ? ` (${formatTenths((100 * part) / total)} %)` : "");
  const counts = [instructionsRun, instructions, directionsRun, directions];
  return say.coverageSummary(counts, formatPercent(instructionsRun, instructions), formatPercent(directionsRun, directions));
}
