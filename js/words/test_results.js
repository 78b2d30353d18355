// Messages about the results of tests: all tests, a single test, the coverage.

import { formatQuantity } from "../core/bench/numbers.js";
import { formatCoverageSummary } from "../core/testing/coverage.js";
import { CYCLE_MS } from "../core/time/mcs4_time.js";

/**
 * @typedef {import("../core/testing/test_preparation.js").ProjectTextError} ProjectTextError
 * @typedef {import("../core/testing/test_suite.js").Report} Report
 * @typedef {import("../core/testing/test_run.js").Outcome} Outcome
 */

/** @type {Record<ProjectTextError["text"], string>} the titles of the texts */
const TAB_NAMES = { board: "Board", program: "Source", tests: "Tests", properties: "Properties" };

/**
 * Returns the summary of all tests.
 * @param {Outcome[]} outcomes
 */
export function testsSummary(outcomes) {
  const failedCount = outcomes.filter(({ failure }) => failure).length;
  if (failedCount === 0) return outcomes.length === 1 ? "The test passed." : `All ${formatQuantity(outcomes.length, "test")} passed.`;
  return `${failedCount} of ${formatQuantity(outcomes.length, "test")} failed.`;
}

/**
 * Returns the mark on the Tests tab: "passed", or the number of failed tests.
 * @param {Outcome[]} outcomes
 */
export function testsTabMark(outcomes) {
  const failedCount = outcomes.filter(({ failure }) => failure).length;
  return failedCount > 0 ? `${failedCount} failed` : "passed";
}

/**
 * Returns the message that is shown if nothing was run because the texts have errors: the first error, and the number of others.
 * @param {ProjectTextError[]} errors
 * @param {(number: number) => string} describeRefusal
 */
export function textErrorsMessage(errors, describeRefusal) {
  const [{ text, line, number, words }] = errors;
  const errorText = words || `no ${number}: ${describeRefusal(number)}`;
  const othersText = errors.length > 1 ? `, and ${errors.length - 1} more` : "";
  return `Nothing was run: ${TAB_NAMES[text]}${line > 0 ? `, line ${line}` : ""}: ${errorText}${othersText}.`;
}

/**
 * Returns the duration of a test, in cycles and in milliseconds or seconds.
 * @param {Outcome} outcome
 */
export function testDuration({ cycles }) {
  const time = cycles * CYCLE_MS;
  return `${formatQuantity(cycles, "cycle")}, ${time < 1000 ? `${time.toFixed(1)} ms` : `${(time / 1000).toFixed(2)} s`}`;
}

/**
 * Returns the text about the program's coverage by the tests, or "" if nothing was counted.
 * @param {Report} report
 */
export function coverageMessage({ coverage }) {
  if (!coverage || coverage.instructions === 0) return "";
  const oneWayJumpCount = coverage.lines.filter(({ isJump, count, jumpCount }) => (
    isJump && count > 0 && (jumpCount === 0 || jumpCount === count))).length;
  const oneWayText = oneWayJumpCount === 0 ? "" : ` ${formatQuantity(oneWayJumpCount, "jump")} always went one way.`;
  return `${formatCoverageSummary(coverage)}.${oneWayText} Counts are in the margin.`;
}
