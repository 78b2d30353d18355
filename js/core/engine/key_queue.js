// Queues key changes. A program polls the keys only from time to time. Therefore the queue keeps each key down, and then up, long enough
// for the program to notice even a short press.

import { isSameKey, keyLine } from "../board/key_place.js";
import { KEY_DOWN_CYCLES, KEY_UP_CYCLES } from "../time/mcs4_time.js";

/** The maximum number of cycles of one `run` command. */
export const MAX_RUN_CYCLES = 100000;

/**
 * Returns `run` commands that together run a number of cycles.
 * @param {number} cycles
 */
export function formatRunLines(cycles) {
  let lines = "";
  for (let cyclesLeft = cycles; cyclesLeft > 0; cyclesLeft -= MAX_RUN_CYCLES) lines += `run ${Math.min(cyclesLeft, MAX_RUN_CYCLES)}\n`;
  return lines;
}

/**
 * @typedef {import("../board/key_place.js").Key} Key
 * @typedef {{ key: Key, word: "press" | "release" }} KeyChange
 *
 * A line to send: a key change or a run.
 * @typedef {{ line: string, change: KeyChange | null }} PlannedLine
 */

/**
 * Returns the minimum number of cycles between a key change and the next one.
 * @param {KeyChange} change
 */
function minCyclesAfter(change) {
  return change.word === "press" ? KEY_DOWN_CYCLES : KEY_UP_CYCLES;
}

export class KeyQueue {
  constructor() {
    /** @type {KeyChange[]} */
    this.changes = [];
    /** The number of cycles that must pass before the next key change. */
    this.remainingWait = 0;
  }

  /** @param {Key} key */
  press(key) {
    this.changes.push({ key, word: "press" });
  }

  /** @param {Key} key */
  release(key) {
    this.changes.push({ key, word: "release" });
  }

  /**
   * Removes the queued changes of a key.
   * @param {Key} key
   */
  forget(key) {
    this.changes = this.changes.filter((change) => !isSameKey(change.key, key));
  }

  clear() {
    this.changes = [];
    this.remainingWait = 0;
  }

  /**
   * Returns the lines for the next cycles: `run` commands, and between them the key changes that become due.
   * @param {number} cycles
   * @returns {PlannedLine[]}
   */
  plan(cycles) {
    /** @type {PlannedLine[]} */
    const plannedLines = [];
    let { remainingWait } = this;
    let cyclesLeft = cycles;
    let changeIndex = 0;
    while (cyclesLeft > 0) {
      const change = this.changes[changeIndex];
      if (change && remainingWait === 0) {
        plannedLines.push({ line: keyLine(change.word, change.key), change });
        remainingWait = minCyclesAfter(change);
        changeIndex += 1;
      }
      const maxRunCycles = this.changes[changeIndex] ? Math.min(remainingWait, MAX_RUN_CYCLES) : MAX_RUN_CYCLES;
      const runCycles = Math.min(cyclesLeft, maxRunCycles);
      plannedLines.push({ line: `run ${runCycles}`, change: null });
      cyclesLeft -= runCycles;
      remainingWait = Math.max(0, remainingWait - runCycles);
    }
    return plannedLines;
  }

  /**
   * Updates the queue after planned lines were executed. If the last run ended early, counts only the cycles that it ran.
   * @param {PlannedLine[]} plannedLines
   * @param {(index: number) => number} cyclesOf returns the number of cycles that the line at an index ran
   */
  markExecuted(plannedLines, cyclesOf) {
    plannedLines.forEach(({ change }, index) => {
      if (change) {
        this.changes = this.changes.filter((waitingChange) => waitingChange !== change);
        this.remainingWait = minCyclesAfter(change);
      } else {
        this.remainingWait = Math.max(0, this.remainingWait - cyclesOf(index));
      }
    });
  }
}
