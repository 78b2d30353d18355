// Keeps the source editor in step with the machine. If the source is the program in ROM, the editor marks the line of the next instruction,
// and the page shows the names of addresses. The page compares the source with ROM again after each change of the source or of ROM.

import { hex } from "../bench/numbers.js";
import { SourceMap } from "./source_map.js";
import * as say from "../../words/machine.js";

/**
 * @typedef {import("../engine/program_check.js").ProgramCheck} ProgramCheck
 *
 * The source editor. `showNextInstruction` marks the line of the next instruction (0 for none). `showAddresses` shows the address of each
 * line ("" for none). `reveal` scrolls to a line.
 * @typedef {{ showNextInstruction: (line: number) => void, showAddresses: (addresses: string[]) => void,
 *   reveal: (line: number) => void }} SourceEditor
 */

/**
 * The callbacks of SourceSync.
 * @typedef {object} SourceSyncCallbacks
 * @property {() => string} text Returns the source as sent to the bench.
 * @property {(text: string) => Promise<ProgramCheck>} check Compares a source with ROM. Resolves to the `map` answer or the error in the
 *   source, and the first difference from ROM.
 * @property {(map: SourceMap | null, mismatch: string) => void} onChange Called with the result of a check if it differs from the result of
 *   the previous check. If the source is not the program in ROM, `map` is null and `mismatch` is the reason.
 * @property {(number: number) => string} describeRefusal Returns the message for an error number of the bench.
 */

/** @type {SourceEditor} an editor that shows nothing, for use before the page has created its editor */
const NO_EDITOR = { showNextInstruction: () => {}, showAddresses: () => {}, reveal: () => {} };

/**
 * Returns an address as text, such as `0x014`.
 * @param {number} address
 */
function formatAddress(address) {
  return `0x${hex(address, 3)}`;
}

export class SourceSync {
  /** @param {SourceSyncCallbacks} callbacks */
  constructor(callbacks) {
    this.callbacks = callbacks;
    this.editor = NO_EDITOR;
    /** @type {SourceMap | null} the source map of the program in ROM; null if the source is another program */
    this.map = null;
    /** The reason why the source is not the program in ROM, or "". */
    this.mismatch = "";
    /** @type {ProgramCheck | null} the result of the last check */
    this.lastResult = null;
    /** The source that was checked last. */
    this.text = "";
    /** The number of the last check that was started. `check` discards the results of older checks. */
    this.lastCheck = 0;
    /** @type {Promise<void> | null} the check for which all callers of `waitForCheck` wait; null for none */
    this.pendingCheck = null;
    this.nextLine = 0;
  }

  /** Clears all results. Called when the editor shows another text. */
  forget() {
    this.map = null;
    this.mismatch = "";
    this.lastResult = null;
    this.text = "";
    this.nextLine = 0;
    this.callbacks.onChange(null, "");
  }

  /** Checks whether the source is the program in ROM. Ignores the result if a later check has started meanwhile. */
  async check() {
    this.lastCheck += 1;
    const { lastCheck: checkNumber } = this;
    const text = this.callbacks.text();
    const result = await this.callbacks.check(text);
    if (checkNumber === this.lastCheck) this.handleResult(text, result);
  }

  /**
   * Stores the result of a check, shows the addresses in the editor, and reports the new map. Ignores a result that equals the last one for
   * the same text.
   * @param {string} text the source that was checked
   * @param {ProgramCheck} result
   */
  handleResult(text, result) {
    const isUnchanged = text === this.text && JSON.stringify(result) === JSON.stringify(this.lastResult);
    if (isUnchanged) return;
    this.text = text;
    this.lastResult = result;
    const map = new SourceMap(result.map, text);
    this.mismatch = this.findMismatch(result, map);
    this.map = this.mismatch === "" && map.lineCount > 0 ? map : null;
    this.editor.showAddresses(listLineAddresses(map));
    this.callbacks.onChange(this.map, this.mismatch);
  }

  /**
   * Returns the reason why the source is not the program in ROM, or "".
   * @param {ProgramCheck} result
   * @param {SourceMap} map
   */
  findMismatch({ refusal, difference }, map) {
    if (refusal) {
      const lineText = refusal.line > 0 ? say.onSourceLine(refusal.line) : "";
      const errorText = refusal.number > 0 ? `no ${refusal.number}: ${this.callbacks.describeRefusal(refusal.number)}` : say.DOT_ENDS;
      return say.sourceHasError(lineText, errorText);
    }
    if (!difference) return "";
    const line = map.lineOf(difference.address);
    if (!difference.hasRom) return say.noRomAtMessage(formatAddress(difference.address), line);
    return say.differsAt(formatAddress(difference.address), line);
  }

  /**
   * Marks the line of the next instruction. Marks no line while the session runs.
   * @param {number} counter the program counter
   * @param {boolean} isRunning
   */
  showNextInstruction(counter, isRunning) {
    const line = this.map && !isRunning ? this.map.lineOf(counter) : 0;
    if (line === this.nextLine) return;
    this.nextLine = line;
    this.editor.showNextInstruction(line);
  }

  /**
   * Scrolls to the line of an address.
   * @param {number} address
   */
  reveal(address) {
    const line = this.map ? this.map.lineOf(address) : 0;
    if (line > 0) this.editor.reveal(line);
  }

  /** Waits until the current source has been checked. */
  async waitForCheck() {
    // All callers wait for the same check. A newer check discards the results of older checks, so if each caller started its own check, a
    // result might never be accepted.
    while (this.callbacks.text() !== this.text || !this.lastResult) {
      this.pendingCheck = this.pendingCheck || this.check().finally(() => {
        this.pendingCheck = null;
      });
      await this.pendingCheck;
    }
  }

  /**
   * Describes the value of a program name; "" for any other word.
   * @param {string} word
   */
  meaningOf(word) {
    return this.map ? this.map.meaningOf(word) : "";
  }
}

/**
 * Returns the addresses of all lines, with "" for a line without bytes.
 * @param {SourceMap} map
 */
function listLineAddresses(map) {
  return map.sizes.slice(1).map((size, index) => (size > 0 ? hex(map.addresses[index + 1], 3) : ""));
}
