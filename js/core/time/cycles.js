// Counts the cycles of a session: since the last reset, since the last stop, and between two marks. Also formats a number of cycles,
// together with its duration on a real 4004.

import { formatQuantity } from "../bench/numbers.js";
import { CYCLE_US } from "./mcs4_time.js";
import * as say from "../../words/time.js";

/**
 * The stored counts of a session. `total` is the number of cycles so far. `reset` was the total at the last reset, and `from` was the total
 * at the start of the last run. `marks` are the totals at the user's marks (at most two).
 * @typedef {{ total: number, reset: number, from: number, marks: number[] }} StoredCycles
 */

/** @type {StoredCycles} */
export const ZERO_COUNTS = { total: 0, reset: 0, from: 0, marks: [] };

/**
 * Returns the time that a real 4004 takes for a number of cycles, such as `5.810 ms`.
 * @param {number} cycles
 */
export function formatCycleTime(cycles) {
  const milliseconds = (cycles * CYCLE_US) / 1000;
  return milliseconds < 1000 ? say.inMilliseconds(milliseconds.toFixed(3)) : say.inSeconds((milliseconds / 1000).toFixed(3));
}

/**
 * Returns a number of cycles with its time, such as `538 cycles, 5.810 ms`.
 * @param {number} cycles
 */
export function formatCycles(cycles) {
  return `${formatQuantity(cycles, "cycle")}, ${formatCycleTime(cycles)}`;
}

export class Cycles {
  /** @param {StoredCycles} [storedCounts] */
  constructor(storedCounts = ZERO_COUNTS) {
    const { total, reset, from, marks } = storedCounts;
    this.total = total;
    this.reset = reset;
    this.from = from;
    this.marks = marks;
    /** True if the session is paused. The next cycles then start another run. */
    this.isPaused = true;
  }

  /**
   * Stores the cycle counts that the bench reports. If the session was paused and the total has changed, a new run has started.
   * @param {{ total: number, reset: number }} counts the number of cycles so far, and this number at the last reset
   */
  update({ total, reset }) {
    if (total !== this.total && this.isPaused) {
      this.from = Math.min(this.total, total);
      this.isPaused = false;
    }
    this.total = total;
    this.reset = reset;
  }

  /** Records that the session is paused. */
  recordPause() {
    this.isPaused = true;
  }

  /** Adds a mark at the current cycle. If two marks are already set, removes them first. */
  addMark() {
    this.marks = this.marks.length === 1 ? [...this.marks, this.total] : [this.total];
  }

  /**
   * The numbers of cycles since the last reset, since the last stop, and since the first mark (null without a mark). If there is a second
   * mark, the last number counts only up to this mark.
   */
  get counts() {
    const [first, secondMark = this.total] = this.marks;
    return {
      sinceReset: this.total - this.reset,
      sinceStop: this.total - this.from,
      marked: first === undefined ? null : Math.abs(secondMark - first),
    };
  }

  /** @returns {StoredCycles} the counts to store */
  get storedCounts() {
    const { total, reset, from, marks } = this;
    return { total, reset, from, marks };
  }
}
