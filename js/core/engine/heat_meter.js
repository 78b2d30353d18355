// Counts the changes of RAM nibbles while the machine runs, from the answers to `trace` queries before each run. In each frame, the meter
// watches one RAM chip, so that the work per frame does not grow with the number of chips.

import { ChangeCounter, GROUPS_PER_CHIP, listNibbleGroups } from "./heat_map.js";
import { ForecastAnswers, parseTraceLine } from "./forecast_answers.js";

/**
 * @typedef {import("../bench/answers.js").Board} Board
 * @typedef {import("./heat_map.js").Heat} Heat
 *
 * The changes in one RAM chip. `chipCount` is the number of RAM chips on the board.
 * @typedef {Heat & { chipCount: number }} ChipHeat
 */

export class HeatMeter {
  /** @param {Board} board */
  constructor(board) {
    const groups = listNibbleGroups(board);
    this.chipCount = groups.length / GROUPS_PER_CHIP;
    this.allGroups = groups;
    /** The index of the chip that is currently watched. */
    this.chip = 0;
  }

  /** The groups of nibbles in the watched chip. */
  get groups() {
    return this.allGroups.slice(this.chip * GROUPS_PER_CHIP, (this.chip + 1) * GROUPS_PER_CHIP);
  }

  // --- The queries before each run ---

  /** The number of queries before each run. */
  get count() {
    return GROUPS_PER_CHIP;
  }

  /** False because the answers to `state` are not used. */
  get needsStates() {
    return false;
  }

  /**
   * Returns the queries to send before a run: a `trace` of each group of nibbles in the watched chip.
   * @param {number} cycles the length of the run
   */
  queries(cycles) {
    return this.groups.map((places) => `trace ${cycles} ${places.join(" ")}\n`).join("");
  }

  /**
   * Counts the changes in the watched chip, as reported by the answers to `queries`. Then switches to the next chip.
   * @param {string[][]} answerLists one list of answers for each planned line; empty for a line that is not a run
   * @returns {ChipHeat}
   */
  take(answerLists) {
    const changeCounter = new ChangeCounter(this.groups);
    for (const answers of answerLists) if (answers.length > 0) this.add(changeCounter, new ForecastAnswers(answers));
    this.chip = (this.chip + 1) % this.chipCount;
    return { ...changeCounter.heat, chipCount: this.chipCount };
  }

  /**
   * Adds the changes in one run to a change counter.
   * @param {ChangeCounter} changeCounter
   * @param {ForecastAnswers} answers the answers to the queries before one run
   */
  add(changeCounter, answers) {
    const cyclesAtStart = changeCounter.cycles;
    for (let group = 0; group < GROUPS_PER_CHIP; group++) {
      const { row, lines, cycles } = answers.takeTrace();
      let previousRow = row;
      for (const line of lines) {
        const { row: after, cycles: cyclesBefore, address } = parseTraceLine(line);
        changeCounter.add({ group, before: previousRow, after, cycles: cyclesBefore, address, line: "" }, cyclesAtStart);
        previousRow = after;
      }
      changeCounter.cycles = cyclesAtStart + cycles;
    }
  }
}
