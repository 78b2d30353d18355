// Computes the durations of runs from the bench's answers, in cycles and as the time of a real 4004.

import { readRun } from "../bench/answers.js";
import { CYCLE_TENTHS_US } from "./mcs4_time.js";
import * as say from "../../words/time.js";

/**
 * A function that describes the location at a program counter, given as hexadecimal digits.
 * @typedef {(counter: string) => string} PlaceDescriber
 *
 * The durations of runs. `runs` contains a string for each run: its duration, and where or why it stopped. `sum` is the total duration. In
 * case of an error, `message` is the error message, and there are no durations.
 * @typedef {{ runs: string[], sum: string, message: string }} RunTimes
 */

const REFUSAL = /^no \d/;
/** Matches an answer to `regs` or `state`, and captures the program counter. */
const COUNTER_ANSWER = /^(?:acc|state seq) .*?\bpc ([0-9A-F]+)/;

/**
 * Returns a number of cycles with its time in microseconds.
 * @param {number} cycles
 */
function formatRunTime(cycles) {
  const tenths = cycles * CYCLE_TENTHS_US;
  return say.cyclesAndMicroseconds(cycles, `${Math.floor(tenths / 10)}.${tenths % 10}`);
}

/**
 * Returns the duration of each run in a range of answers, and where or why the run stopped. The result has an error message if an answer
 * in the range rejects a line, if the range contains no run, or if there are fewer than `lastAnswer` answers.
 * @param {string[]} answers
 * @param {number} firstAnswer the number of the first answer to use, from 1
 * @param {number} lastAnswer the number of the last answer to use, or 0 to use all answers up to the end of the list
 * @param {PlaceDescriber | null} describePlace describes where a run stopped; null to report why it stopped instead
 * @returns {RunTimes}
 */
export function listRunTimes(answers, firstAnswer, lastAnswer, describePlace) {
  const createErrorResult = (/** @type {string} */ message) => ({ runs: [], sum: "", message });
  let cycles = 0;
  /** @type {{ time: string, stop: string, place: string }[]} */
  const runs = [];
  let lacksPlace = false;
  for (let answerNumber = 1; answerNumber <= answers.length; answerNumber++) {
    const answer = answers[answerNumber - 1];
    if (answer.startsWith("ok ")) lacksPlace = false;
    if (answerNumber >= firstAnswer && (answerNumber <= lastAnswer || lastAnswer === 0)) {
      if (REFUSAL.test(answer)) return createErrorResult(say.answerIsRefusalMessage(answerNumber, answer));
      const run = readRun(answer);
      if (run) {
        cycles += run.cycles;
        runs.push({ time: formatRunTime(run.cycles), stop: run.end, place: "" });
        lacksPlace = true;
      }
    }
    const [, counter = ""] = (lacksPlace && describePlace && COUNTER_ANSWER.exec(answer)) || [];
    if (counter !== "" && describePlace) {
      runs[runs.length - 1].place = describePlace(counter);
      lacksPlace = false;
    }
  }
  if (answers.length < lastAnswer) return createErrorResult(say.tooFewAnswersMessage(answers.length));
  if (runs.length === 0) return createErrorResult(say.NO_RUN);
  const rows = runs.map(({ time, stop, place }) => `${time}${place === "" ? say.STOP_REASONS[stop] : say.toPlace(place)}`);
  return { runs: rows, sum: formatRunTime(cycles), message: "" };
}
