// Formats coverage in two ways: for a terminal, as source text with a count before each line; for other programs, in the LCOV format.

import { formatCoverageSummary } from "./coverage.js";
import { expandTabs } from "../text/tab_expansion.js";
import * as say from "../../words/testing.js";

/**
 * @typedef {import("./coverage.js").Coverage} Coverage
 * @typedef {import("./coverage.js").LineCoverage} LineCoverage
 *
 * The source text of a program. `linesBefore` is the number of lines before the text in the file that contains it.
 * @typedef {{ text: string, linesBefore: number }} ProgramText
 */

/** The widths of the report columns, in characters. */
const COUNT_WIDTH = 10;
const DIRECTIONS_WIDTH = 13;

/** @type {(jump: LineCoverage) => boolean} returns whether a conditional jump ran and always took the same direction */
const isOneDirectionJump = ({ isJump, count, jumpCount }) => isJump && count > 0 && (jumpCount === 0 || jumpCount === count);

/**
 * Returns the report row for a source line.
 * @param {string} source
 * @param {LineCoverage | undefined} lineCoverage undefined if the line has no instruction
 */
function formatRow(source, lineCoverage) {
  const count = lineCoverage ? lineCoverage.count || say.NEVER : "";
  const jumpCounts = lineCoverage && lineCoverage.isJump ? `${lineCoverage.jumpCount}/${lineCoverage.count - lineCoverage.jumpCount}` : "";
  return `${String(count).padStart(COUNT_WIDTH)} ${jumpCounts.padEnd(DIRECTIONS_WIDTH)}  ${expandTabs(source)}`.replace(/ +$/, "");
}

/**
 * Returns the report: the source with counts, a summary, the lines that never ran, and the jumps that took only one direction.
 * @param {Coverage} coverage
 * @param {ProgramText} program
 */
export function coverageText(coverage, { text, linesBefore }) {
  const lineCoverage = new Map(coverage.lines.map((line) => [line.line, line]));
  const rows = text.replace(/\n$/, "").split("\n").map((source, index) => formatRow(source, lineCoverage.get(index + 1)));
  const rangeTexts = coverage.unexecutedRanges.map(({ from, to }) => (
    from === to ? `${from + linesBefore}` : say.formatRange(from + linesBefore, to + linesBefore)));
  const oneDirectionTexts = coverage.lines.filter(isOneDirectionJump).map(({ line, jumpCount }) => (
    say.describeDirection(line + linesBefore, jumpCount > 0)));
  const summaryLines = [
    "", formatCoverageSummary(coverage),
    ...(rangeTexts.length > 0 ? [say.neverRun(rangeTexts.join(", "), rangeTexts.length > 1 || rangeTexts[0].includes(" "))] : []),
    ...(oneDirectionTexts.length > 0 ? [say.oneDirectionOnly(oneDirectionTexts.join(", "), oneDirectionTexts.length > 1)] : []),
  ];
  return `${[...rows, ...summaryLines].join("\n")}\n`;
}

/** @type {(name: string, values: (string | number)[]) => string} returns a line of an LCOV file */
const formatRecord = (name, values) => `${name}:${values.join(",")}`;

/**
 * Returns the coverage in the LCOV format. Reports each label that a JMS calls as a function.
 * @param {Coverage} coverage
 * @param {{ name: string, linesBefore: number }} program the file name, and the number of lines before the program in the file
 */
export function lcovText({ lines, subroutines, instructions, instructionsRun, directions, directionsRun }, { name, linesBefore }) {
  const branches = lines.filter(({ isJump }) => isJump).flatMap(({ line, count, jumpCount }) => (
    [jumpCount, count - jumpCount].map((times, direction) => (
      formatRecord("BRDA", [line + linesBefore, 0, direction, count > 0 ? times : "-"])))));
  return `${[
    "TN:", `SF:${name}`,
    ...subroutines.map(({ line, label }) => formatRecord("FN", [line + linesBefore, label])),
    ...subroutines.map(({ count, label }) => formatRecord("FNDA", [count, label])),
    formatRecord("FNF", [subroutines.length]), formatRecord("FNH", [subroutines.filter(({ count }) => count > 0).length]),
    ...branches, formatRecord("BRF", [directions]), formatRecord("BRH", [directionsRun]),
    ...lines.map(({ line, count }) => formatRecord("DA", [line + linesBefore, count])),
    formatRecord("LF", [instructions]), formatRecord("LH", [instructionsRun]), "end_of_record",
  ].join("\n")}\n`;
}
