// Logs, for the console, the lines that the bench executes while the machine runs. The log has one entry per key change, and one entry for
// consecutive runs.

import * as say from "../../words/bench.js";

/**
 * A log entry: a line and its answer, or consecutive `run` lines with their last answer. `runs` is the number of `run` lines; 0 for any
 * other line. `cycles` is the number of executed cycles.
 * @typedef {{ line: string, answer: string, runs: number, cycles: number }} RunEntry
 */

/** The entries since the last call of `take`. */
export class RunLog {
  constructor() {
    /** @type {RunEntry[]} */
    this.entries = [];
  }

  /**
   * Appends entries. Merges consecutive runs into one entry.
   * @param {RunEntry[]} entries
   */
  add(entries) {
    for (const entry of entries) {
      const last = this.entries[this.entries.length - 1];
      if (entry.runs > 0 && last && last.runs > 0) {
        last.runs += entry.runs;
        last.cycles += entry.cycles;
        last.answer = entry.answer;
      } else {
        this.entries.push({ ...entry });
      }
    }
  }

  /** Removes all entries and returns them. */
  take() {
    const { entries } = this;
    this.entries = [];
    return entries;
  }
}

/**
 * Returns the console text of an entry.
 * @param {RunEntry} entry
 */
export function formatLogEntry({ line, runs, cycles }) {
  return runs > 1 ? say.mergedRuns(runs, cycles.toLocaleString("en")) : line;
}
