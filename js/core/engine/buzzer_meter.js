// Reports the edges of a signal line while the machine runs, so that the page can play the buzzer. Reads the edges from the answer to a
// `trace` query before each run.

import { ForecastAnswers, parseTraceLine } from "./forecast_answers.js";

/**
 * The levels of a signal line during an interval. `cycles` is the length of the interval. `level` is the level at its start. `edges` are
 * the times of the edges, in cycles since the start.
 * @typedef {{ cycles: number, level: number, edges: number[] }} BuzzerLevels
 */

export class BuzzerMeter {
  /** @param {string} line the signal line, such as `rom0.3`, `ram0.1.3` or `chain0.5` */
  constructor(line) {
    this.line = line;
  }

  // --- The queries before each run ---

  /** The number of queries before each run. */
  get count() {
    return 1;
  }

  /** False because the answers to `state` are not used. */
  get needsStates() {
    return false;
  }

  /**
   * Returns the query to send before a run: a `trace` of the signal line for the length of the run.
   * @param {number} cycles the length of the run
   */
  queries(cycles) {
    return `trace ${cycles} ${this.line}\n`;
  }

  /**
   * Returns the levels of the signal line during the runs, as the answers to `queries` forecast them. An instruction changes the signal
   * line after the first cycle of the instruction.
   * @param {string[][]} answerLists one list of answers for each planned line; empty for a line that is not a run
   * @returns {BuzzerLevels}
   */
  take(answerLists) {
    const levels = { cycles: 0, level: 0, edges: /** @type {number[]} */ ([]) };
    for (const answers of answerLists) {
      if (answers.length === 0) continue;
      const { row, lines, cycles } = new ForecastAnswers(answers).takeTrace();
      if (levels.cycles === 0) levels.level = Number(row.slice(1));
      for (const line of lines) levels.edges.push(levels.cycles + parseTraceLine(line).cycles + 1);
      levels.cycles += cycles;
    }
    return levels;
  }
}
