// Adds queries before each planned run. The queries and the run are sent in the same call. In the answers to the queries, the bench
// forecasts what happens during the run.

import { plannedCycles } from "../debug/goal_search.js";
import { ForecastAnswers } from "./forecast_answers.js";

/**
 * @typedef {import("./accepted_commands.js").AcceptedCommand} AcceptedCommand
 *
 * A line to send. `change` is null for a run; for any other line, it describes the change that the line makes, such as a key change.
 * @typedef {{ line: string, change: object | null }} SentLine
 *
 * A source of queries before each run, such as the recorder or the printer. `queries` returns the query lines for a run of `cycles` cycles.
 * `count` is the number of these queries; the format of each answer is that of `trace`. `needsStates` is true if the source also needs the
 * answer to `state` after each line that is not a run.
 * @typedef {{ queries: (cycles: number) => string, count: number, needsStates: boolean }} QuerySource
 */

/**
 * Returns the planned lines with the queries of all sources before each run. If a source needs states, `state` follows each line
 * that is not a run.
 * @param {SentLine[]} plannedLines
 * @param {QuerySource[]} querySources
 */
export function linesWithQueries(plannedLines, querySources) {
  const stateQuery = querySources.some(({ needsStates }) => needsStates) ? "state\n" : "";
  return plannedLines.map((plannedLine) => {
    if (plannedLine.change) return `${plannedLine.line}\n${stateQuery}`;
    return `${querySources.map((source) => source.queries(plannedCycles(plannedLine))).join("")}${plannedLine.line}\n`;
  }).join("");
}

/**
 * Separates the answers to planned lines from the answers to queries. `answers` contains the answers to the planned lines and to all lines
 * after them. `sourceAnswers[s][p]` contains the answers to the queries of source `s` for planned line `p`.
 * @param {SentLine[]} plannedLines
 * @param {QuerySource[]} querySources
 * @param {string[]} allAnswers
 * @returns {{ answers: string[], sourceAnswers: string[][][] }}
 */
export function splitAnswers(plannedLines, querySources, allAnswers) {
  const answers = new ForecastAnswers(allAnswers);
  /** @type {string[]} */
  const lineAnswers = [];
  /** @type {string[][][]} */
  const sourceAnswers = querySources.map(() => []);
  const needsStates = querySources.some((source) => source.needsStates);
  for (const { change } of plannedLines) {
    if (change) {
      lineAnswers.push(answers.take());
      const stateAnswers = needsStates ? [answers.take()] : [];
      querySources.forEach((source, index) => sourceAnswers[index].push(source.needsStates ? stateAnswers : []));
      continue;
    }
    querySources.forEach(({ count }, index) => {
      const from = answers.nextIndex;
      for (let query = 0; query < count; query++) answers.takeTrace();
      sourceAnswers[index].push(allAnswers.slice(from, answers.nextIndex));
    });
    lineAnswers.push(answers.take());
  }
  return { answers: [...lineAnswers, ...allAnswers.slice(answers.nextIndex)], sourceAnswers };
}

/** The `change` of a line that is neither a run nor a key change. */
const OTHER_CHANGE = {};

/**
 * Returns a line with the same effect as an accepted command: `run N` if the command took N cycles, or else the command itself.
 * @param {AcceptedCommand} command
 * @returns {SentLine}
 */
export function createReplayLine({ line, cycles }) {
  return cycles > 0 ? { line: `run ${cycles}`, change: null } : { line, change: OTHER_CHANGE };
}
