// Formats test results in TAP version 13, the format that Perl's `prove` reads.

import * as say from "../../words/testing.js";

/** @typedef {import("./test_run.js").Failure} Failure */
/** @typedef {import("./test_run.js").Outcome} Outcome */

export const TAP_HEADER = "TAP version 13";

/**
 * Formats text as a YAML string.
 * @param {string} text
 */
export function formatYamlString(text) {
  return `"${text.replace(/\\/g, "\\\\").replace(/"/g, '\\"')}"`;
}

/**
 * Returns the description of a test. Escapes `#`, which would start a TAP directive.
 * @param {string} name
 */
export function formatTapDescription(name) {
  return name.replace(/\\/g, "\\\\").replace(/#/g, "\\#");
}

/** @type {(failure: Failure) => string} returns the location of the failed step as `FILE:LINE` */
const stepLocation = ({ source, line }) => `${source}:${line}`;

/**
 * Returns the YAML lines below `not ok`: the error, its location, and the session state at the error.
 * @param {Failure} failure
 */
function formatDiagnosis(failure) {
  const { text, words, file, cycles, lamps, registers, trace } = failure;
  const lines = [
    say.tapMessage(formatYamlString(words)), say.tapLocation(formatYamlString(stepLocation(failure))), say.tapLine(formatYamlString(text)),
  ];
  if (file) {
    lines.push(say.tapCycles(cycles), say.tapLamps(formatYamlString(lamps)), say.tapRegisters(formatYamlString(registers)));
    if (trace.length > 0) lines.push(say.TAP_TRACE, ...trace.map((line) => `  ${line}`));
  }
  return ["---", ...lines, "..."].map((line) => `  ${line}`);
}

/**
 * Returns the TAP lines of a test. The lines of the first test start with the TAP header.
 * @param {Outcome} outcome
 * @param {number} number the number of the test, from 1
 * @param {number} total
 */
export function formatTestTap({ name, failure }, number, total) {
  const headerLines = number === 1 ? [TAP_HEADER, `1..${total}`] : [];
  const result = `${failure ? "not ok" : "ok"} ${number} - ${formatTapDescription(name)}`;
  return `${[...headerLines, result, ...(failure ? formatDiagnosis(failure) : [])].join("\n")}\n`;
}

/**
 * Returns the results of all tests in TAP.
 * @param {Outcome[]} outcomes
 */
export function formatTestsTap(outcomes) {
  return outcomes.map((outcome, index) => formatTestTap(outcome, index + 1, outcomes.length)).join("");
}

/**
 * Returns a TAP comment with the location and error of a failed test, for users who watch the output; "" if the test passed.
 * @param {Outcome} outcome
 */
export function formatFailureLine({ name, failure }) {
  return failure ? `# ${stepLocation(failure)}: ${name}: ${failure.words}\n` : "";
}
