// Messages about the results of proofs on the page: all properties, a single property.

import { formatNumber, formatSteps } from "../core/explore/report.js";
import { formatStateCount } from "../core/prove/verdicts.js";
import * as say from "./prove.js";

/**
 * @typedef {import("../core/prove/prover.js").Progress} Progress
 * @typedef {import("../core/prove/bounded_proof.js").PropertyVerdict} PropertyVerdict
 */

/**
 * Returns true if a property is proved, or if a goal is reached.
 * @param {PropertyVerdict} propertyVerdict
 */
export function isDesiredVerdict({ isGoal, verdict }) {
  return verdict.kind !== "open" && isGoal === (verdict.kind === "found");
}

/**
 * Returns a property's mark: its verdict in one or two words.
 * @param {PropertyVerdict} propertyVerdict
 */
export function markOf({ isGoal, verdict }) {
  if (verdict.kind === "open") return say.MARKS.open;
  if (verdict.kind === "proved") return isGoal ? say.MARKS.never : say.MARKS.proved;
  return isGoal ? say.MARKS.reached : say.MARKS.fails;
}

/**
 * Returns the text next to a property's mark: the reason, the number of states, or the counterexample's length.
 * @param {PropertyVerdict} propertyVerdict
 */
export function describeVerdict({ isGoal, verdict }) {
  if (verdict.kind === "open") return verdict.reason;
  if (verdict.kind === "proved") return say.provedFor(formatStateCount(verdict), verdict);
  const { steps, cycles } = verdict.counterexample;
  return say.foundBy(formatSteps(steps), formatNumber(cycles), isGoal);
}

/**
 * Counts the properties by their verdicts.
 * @param {PropertyVerdict[]} propertyVerdicts
 */
function countVerdicts(propertyVerdicts) {
  /** @type {(kind: PropertyVerdict["verdict"]["kind"], isGoal: boolean) => number} */
  const count = (kind, countsGoals) => (
    propertyVerdicts.filter(({ isGoal, verdict }) => verdict.kind === kind && isGoal === countsGoals).length);
  return {
    proved: count("proved", false), broken: count("found", false), reached: count("found", true), never: count("proved", true),
    open: count("open", false) + count("open", true),
  };
}

/**
 * Returns the summary of all verdicts, such as `2 proved, 1 can fail.`
 * @param {PropertyVerdict[]} propertyVerdicts
 * @param {boolean} isStopped true if the proof was cancelled
 */
export function finalSummary(propertyVerdicts, isStopped) {
  const { proved, broken, reached, never, open } = countVerdicts(propertyVerdicts);
  /** @type {[number, (count: string) => string][]} */
  const counts = [[proved, say.countProved], [broken, say.countBroken], [reached, say.countReached], [never, say.countNeverReached],
    [open, say.countOpen]];
  const parts = counts.filter(([number]) => number > 0).map(([number, words]) => words(formatNumber(number)));
  return `${isStopped ? say.CANCELLED : ""}${parts.join(", ")}.`;
}

/**
 * Returns the text about the progress of the proof.
 * @param {Progress} progress
 */
export function progressSummary({ verdicts, count, states }) {
  const which = say.propertyProgress(Math.min(verdicts.length + 1, count), count);
  return states > 0 ? say.statesSoFar(which, formatNumber(states)) : which;
}

/**
 * Returns the mark that the proofs put on the Properties tab: the number of properties that can fail, or else the number of proved
 * properties. Returns "" if there are neither.
 * @param {PropertyVerdict[]} propertyVerdicts
 */
export function proofsTabMark(propertyVerdicts) {
  const { proved, broken } = countVerdicts(propertyVerdicts);
  if (broken > 0) return say.countBroken(formatNumber(broken));
  return proved > 0 ? say.countProved(formatNumber(proved)) : "";
}
