// While the session is paused, reads the values of words in the source from the last snapshot of the session. Also reads the changes that
// the last executed source lines have made.

import { LineChanges } from "../debug/line_changes.js";
import { MachineState } from "../debug/machine_state.js";
import { valuePieces } from "../debug/word_values.js";

/**
 * @typedef {import("../debug/word_values.js").WordLookup} WordLookup
 * @typedef {import("../debug/word_values.js").Piece} Piece
 */

/**
 * The page's callbacks for values in the source.
 * @typedef {object} ValueCallbacks
 * @property {() => import("./source_map.js").SourceMap | null} map Returns the source map of the program in ROM; null if the source is not
 *   in ROM.
 * @property {(lines: ReadonlyMap<number, string>) => void} showLines Shows the changes at the end of each line; line numbers count from 1.
 * @property {() => void} showWatched Shows the current values of the watch expressions.
 * @property {() => string[]} snapshot Returns the answers of the last snapshot.
 * @property {() => boolean} isRunning Returns whether the session runs. The page shows values only while the session is paused.
 * @property {() => void} onChange Called after the values have changed, and when they become unavailable because the session starts to run.
 */

/** @typedef {WordLookup & ValueCallbacks} SourceValueCallbacks */

export class SourceValues {
  /** @param {SourceValueCallbacks} callbacks */
  constructor(callbacks) {
    this.callbacks = callbacks;
    /** @type {string[]} the last snapshot */
    this.snapshot = [];
    /** @type {MachineState | null} the state in the last snapshot */
    this.state = null;
    this.isRunning = false;
    this.changes = new LineChanges();
  }

  /** Clears the values. Called when the page shows another session. */
  forget() {
    this.snapshot = [];
    this.state = null;
    this.changes.forget();
  }

  /** @returns {MachineState | null} the state of the machine while the session is paused; null while it runs */
  get machineState() {
    if (this.callbacks.isRunning()) return null;
    const snapshot = this.callbacks.snapshot();
    if (snapshot !== this.snapshot) {
      this.snapshot = snapshot;
      this.state = snapshot.length > 0 ? new MachineState(snapshot) : null;
    }
    return this.state;
  }

  /**
   * Returns the value of the word at a position in a source line, as pieces of text; an empty list if there is none.
   * @param {string} text
   * @param {number} column
   * @returns {Piece[]}
   */
  valueAt(text, column) {
    const { machineState } = this;
    return machineState ? valuePieces(text, column, machineState, this.callbacks) : [];
  }

  /**
   * Handles a new snapshot. While the session runs, only the first snapshot has an effect: it clears the values.
   * @param {number} cycles the cycle count
   */
  updateFromSnapshot(cycles) {
    const wasRunning = this.isRunning;
    this.isRunning = this.callbacks.isRunning();
    if (this.isRunning && wasRunning) return;
    const { machineState } = this;
    if (machineState) this.changes.recordPause(machineState, cycles, this.callbacks.map());
    this.callbacks.showLines(machineState ? this.changes.lines : new Map());
    this.callbacks.showWatched();
    this.callbacks.onChange();
  }
}
