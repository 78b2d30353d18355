// The report of a search, and its TAP output. Also joins reports of several searches with different seeds, which can come from different
// processes or machines.

import { formatQuantity } from "../bench/numbers.js";
import { TAP_HEADER, formatTapDescription, formatYamlString } from "../testing/tap.js";
import { Coverage } from "./search_coverage.js";
import { moreItems } from "../../words/debug.js";
import * as say from "../../words/explore.js";
import { neverReachedVerdict, provedVerdict } from "../../words/prove.js";

/**
 * @typedef {import("./properties.js").Property} Property
 * @typedef {import("./subject.js").Instruction} Instruction
 *
 * A counterexample: its test, its number of steps, its cycles, and the seed of the search that found it.
 * @typedef {{ test: string, steps: number, cycles: number, seed: number }} Counterexample
 *
 * The result for a property. `isSkipped`: true if the property is a model whose command was not run. `applied`: true if an event in the
 * search was relevant to the property; always true for a goal. `states`: the number of states in the proof, 0 without a proof. `limits`:
 * the lines of the properties text that set the input limits of the proof, [] for a proof for all inputs. `leftOut`: the guards that the
 * proof does not consider. `chains`: for a model, the number of key sequences that were compared. `found`: the counterexample, null for
 * none.
 * @typedef {{ text: string, line: number, isGoal: boolean, isSkipped: boolean, applied: boolean, states: number, limits: string[],
 *   leftOut: string, chains: number, found: Counterexample | null }} PropertyResult
 *
 * A report. `names` are the names of the files, `sums` are their checksums, and `steps` and `states` are the numbers of steps and states so
 * far. `covered` is the executed code, in the text format of Coverage in search_coverage.js. `isStopped` is true if the user stopped the
 * search.
 * @typedef {{ form: "explore 1", names: { board: string, program: string, properties: string }, sums: string, properties: PropertyResult[],
 *   seeds: number[], steps: number, states: number, seconds: number, covered: string, instructions: Instruction[],
 *   isStopped: boolean }} Report
 */

/**
 * Formats a number as a rounded integer with commas: `1,204`.
 * @param {number} number
 */
export const formatNumber = (number) => Math.round(number).toLocaleString("en");

/**
 * Formats a step count: `1 step`, `1,204 steps`.
 * @param {number} count
 */
export const formatSteps = (count) => formatQuantity(count, "step");

/**
 * Returns the counterexample with fewer steps; if the numbers of steps are equal, the one that takes less time.
 * @param {Counterexample | null} first
 * @param {Counterexample | null} second
 */
function pickShorter(first, second) {
  if (!first || !second) return first || second;
  return first.steps < second.steps || (first.steps === second.steps && first.cycles <= second.cycles) ? first : second;
}

/**
 * Returns one of the proofs in several results of a property, if possible one without input limits.
 * @param {PropertyResult[]} results
 * @returns {Pick<PropertyResult, "states" | "limits">}
 */
function pickProof(results) {
  // Reports of older versions have no `limits`.
  const proofs = results.filter(({ states }) => states > 0).map(({ states, limits = [] }) => ({ states, limits }));
  return proofs.find(({ limits }) => limits.length === 0) || proofs[0] || { states: 0, limits: [] };
}

/**
 * Joins the reports of one campaign; returns null if the reports belong to different campaigns.
 * @param {Report[]} reports
 * @returns {Report | null}
 */
export function joinReports(reports) {
  const [first, ...otherReports] = reports;
  if (otherReports.some(({ sums }) => sums !== first.sums)) return null;
  const coverage = new Coverage();
  for (const { covered } of reports) coverage.join(new Coverage(covered));
  /** @type {(read: (report: Report) => number) => number} */
  const sumOf = (read) => reports.reduce((sum, report) => sum + read(report), 0);
  return {
    ...first, covered: coverage.text, seeds: reports.flatMap(({ seeds }) => seeds),
    steps: sumOf(({ steps }) => steps), seconds: sumOf(({ seconds }) => seconds),
    states: Math.max(...reports.map(({ states }) => states)), isStopped: reports.some(({ isStopped }) => isStopped),
    properties: first.properties.map((property, at) => {
      const results = reports.map(({ properties }) => properties[at]);
      return {
        ...property, isSkipped: results.every(({ isSkipped }) => isSkipped), applied: results.some(({ applied }) => applied),
        ...pickProof(results),
        chains: results.reduce((sum, { chains }) => sum + chains, 0),
        found: results.map(({ found }) => found).reduce(pickShorter, null),
      };
    }),
  };
}

/**
 * Returns whether a property was not violated, or a goal was reached; false for a skipped property.
 * @param {PropertyResult} property
 */
export function hasExpectedResult({ isGoal, isSkipped, found }) {
  return !isSkipped && isGoal === (found !== null);
}

/**
 * Returns the remark on the result of a property, such as `broken, 3 steps`.
 * @param {PropertyResult} property
 * @param {Report} report
 */
export function formatRemark(property, report) {
  const { isGoal, applied, states, chains, found } = property;
  if (found) return `${isGoal ? "reached" : "broken"}, ${formatSteps(found.steps)}`;
  if (states > 0) return (isGoal ? neverReachedVerdict : provedVerdict)(formatQuantity(states, "state"), property);
  if (chains > 0) return say.keySequenceCount(formatNumber(chains));
  return applied ? say.stepsAndStates(formatNumber(report.steps), formatNumber(report.states)) : say.NEVER_CHECKED;
}

/**
 * Returns the source location of a property: the file and the line; only the file for a standard property.
 * @param {Pick<PropertyResult, "line">} property
 * @param {Pick<Report, "names">} report
 */
export function propertyLocation({ line }, { names }) {
  return line > 0 ? `${names.properties}:${line}` : names.properties;
}

/**
 * Returns the TAP lines for a property.
 * @param {PropertyResult} property
 * @param {number} index
 * @param {Report} report
 */
function formatTapLines(property, index, report) {
  const { text, found } = property;
  const status = hasExpectedResult(property) ? "ok" : "not ok";
  const lines = [`${status} ${index + 1} - ${formatTapDescription(text)} # ${formatRemark(property, report)}`];
  if (!found) return lines;
  const resultWord = property.isGoal ? "reached" : "broken";
  const message = say.foundBy(resultWord, formatSteps(found.steps), formatNumber(found.cycles), found.seed);
  const location = formatYamlString(propertyLocation(property, report));
  lines.push("  ---", `  message: ${formatYamlString(message)}`, `  at: ${location}`, "  test: |");
  return [...lines, ...found.test.trimEnd().split("\n").map((line) => `    ${line}`), "  ..."];
}

/** The maximum number of line numbers in a list of lines. */
const MAX_LISTED_LINES = 40;

/**
 * Returns the number of lines as text, with at most MAX_LISTED_LINES line numbers.
 * @param {number[]} lines the line numbers
 */
function formatLineNumbers(lines) {
  const hiddenCount = lines.length - MAX_LISTED_LINES;
  return `${say.lineList(lines.length, lines.slice(0, MAX_LISTED_LINES).join(" "))}${hiddenCount > 0 ? moreItems(hiddenCount) : ""}`;
}

/**
 * Returns the lines of the report that say which code was executed.
 * @param {Report} report
 */
export function formatCoverage({ covered, instructions }) {
  const {
    executed, total, directions, allDirections, unexecutedLines, oneDirectionLines,
  } = new Coverage(covered).summarise(instructions);
  const lines = [say.coverageText(say.partOfTotal(executed, total), say.partOfTotal(directions, allDirections))];
  if (unexecutedLines.length > 0) lines.push(say.neverRun(formatLineNumbers(unexecutedLines)));
  if (oneDirectionLines.length > 0) lines.push(say.alwaysOneWay(formatLineNumbers(oneDirectionLines)));
  return lines;
}

/**
 * Returns the report as TAP. A skipped property is only a comment.
 * @param {Report} report
 */
export function formatTap(report) {
  const { properties, seeds, steps, seconds, states, isStopped } = report;
  const checkedProperties = properties.filter(({ isSkipped }) => !isSkipped);
  const lines = [TAP_HEADER, `1..${checkedProperties.length}`];
  checkedProperties.forEach((property, at) => lines.push(...formatTapLines(property, at, report)));
  for (const property of properties) {
    if (property.isSkipped) lines.push(`# ${say.notRunMessage(propertyLocation(property, report), property.text)}`);
  }
  const rate = seconds > 0 ? say.stepsPerSecond(formatNumber(steps / seconds)) : "";
  lines.push(...formatCoverage(report).map((line) => `# ${line}`));
  lines.push(say.statisticsLine(seeds, formatNumber(steps), seconds.toFixed(1), rate, formatNumber(states), isStopped));
  return `${lines.join("\n")}\n`;
}

/**
 * Returns the tests of all counterexamples, each after a comment with the location of its property.
 * @param {Report} report
 */
export function formatReportTests(report) {
  const { names: { board, program } } = report;
  const propertiesWithTest = report.properties.filter((property) => property.found);
  const introduction = say.counterexamplesHeader(board, program);
  const tests = propertiesWithTest.map((property) => (
    `\n# ${propertyLocation(property, report)}\n${property.found ? property.found.test : ""}`));
  return introduction + tests.join("");
}
