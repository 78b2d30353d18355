// The verdicts on properties, and their output in TAP version 13.

import { formatQuantity } from "../bench/numbers.js";
import { formatNumber, formatSteps } from "../explore/report.js";
import { TAP_HEADER, formatTapDescription, formatYamlString } from "../testing/tap.js";
import * as say from "../../words/prove.js";

/**
 * @typedef {import("../explore/properties.js").Property} Property
 * @typedef {import("./counterexample.js").Counterexample} Counterexample
 *
 * The verdict on a property:
 * - `proved`: `states` is the number of states in the proof, or of sets of states if `bySets` is true. `limits` are the lines of the
 *   properties text that set the limits on the inputs that the proof needs, or [] if the proof is for all inputs. `leftOut` names the
 *   guards that the proof omits.
 * - `found`: the prover found a counterexample or, for a goal, a sequence of steps that reaches the goal.
 * - `open`: the property is not decided; `reason` says why.
 * @typedef {{ kind: "proved", states: number, bySets: boolean, limits: string[], leftOut: string }} ProvedVerdict
 * @typedef {ProvedVerdict | { kind: "found", counterexample: Counterexample } | { kind: "open", reason: string }} Verdict
 * @typedef {{ property: Property, verdict: Verdict }} JudgedProperty
 */

/**
 * Returns whether the verdict is the desired one: the property is proved, or the goal can be reached.
 * @param {JudgedProperty} judged
 */
function hasExpectedResult({ property: { isGoal }, verdict }) {
  return verdict.kind !== "open" && isGoal === (verdict.kind === "found");
}

/**
 * Formats the number of states, or of sets of states, in a proof.
 * @param {{ states: number, bySets: boolean }} verdict
 */
export function formatStateCount({ states, bySets }) {
  return bySets ? formatQuantity(states, say.SET, say.SETS) : formatQuantity(states, say.STATE);
}

/** @type {(judgedProperty: JudgedProperty) => string} returns the verdict as text, for the end of the TAP line */
function formatVerdict({ property: { isGoal }, verdict }) {
  if (verdict.kind === "open") return say.notDecided(verdict.reason);
  if (verdict.kind === "proved") return (isGoal ? say.neverReachedVerdict : say.provedVerdict)(formatStateCount(verdict), verdict);
  return isGoal ? say.reachedBy(formatSteps(verdict.counterexample.steps)) : say.brokenBy(formatSteps(verdict.counterexample.steps));
}

/**
 * Returns the TAP lines for a property.
 * @param {JudgedProperty} judgedProperty
 * @param {number} index the number of the property, from 0
 * @param {string} file the name of the properties file
 */
function formatTapLines(judgedProperty, index, file) {
  const { property, verdict } = judgedProperty;
  const status = hasExpectedResult(judgedProperty) ? "ok" : "not ok";
  const lines = [`${status} ${index + 1} - ${formatTapDescription(property.text)} # ${formatVerdict(judgedProperty)}`];
  if (verdict.kind !== "found") return lines;
  const { isTest, text, cycles, steps } = verdict.counterexample;
  lines.push("  ---", `  message: ${formatYamlString(say.foundBy(formatSteps(steps), formatNumber(cycles), property.isGoal))}`);
  // A common mistake, for which every program is checked, has no line in the properties file.
  if (property.line > 0) lines.push(`  at: ${formatYamlString(`${file}:${property.line}`)}`);
  lines.push(`  ${isTest ? "test" : "session"}: |`);
  return [...lines, ...text.trimEnd().split("\n").map((line) => `    ${line}`), "  ..."];
}

/**
 * Returns the first lines of TAP output: the header, and the plan with the number of tests.
 * @param {number} count the number of properties
 */
export const formatTapHeader = (count) => `${TAP_HEADER}\n1..${count}\n`;

/**
 * Returns the TAP output for a property.
 * @param {JudgedProperty} judgedProperty
 * @param {number} index the number of the property, from 0
 * @param {string} file the name of the properties file
 */
export const formatJudgedTap = (judgedProperty, index, file) => `${formatTapLines(judgedProperty, index, file).join("\n")}\n`;

/**
 * Returns the exit status: 1 if a property can be violated or a goal cannot be reached, otherwise 3 if a verdict is open, otherwise 0.
 * @param {JudgedProperty[]} results
 */
export function findExitStatus(results) {
  if (results.some((judgedProperty) => judgedProperty.verdict.kind !== "open" && !hasExpectedResult(judgedProperty))) return 1;
  return results.some(({ verdict }) => verdict.kind === "open") ? 3 : 0;
}
