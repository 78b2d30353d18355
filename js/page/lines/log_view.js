// The console log: the lines that were sent, and their answers. A line appears only after the page has tried to save the session.

import { parseRefusal } from "../../core/bench/answers.js";
import { block, element } from "../ui/dom.js";
import { RunLog, formatLogEntry } from "../../core/bench/run_log.js";
import * as say from "../../words/page.js";

/**
 * @typedef {import("../../core/engine/worker_session.js").ServedInput} ServedInput
 * @typedef {import("../../core/bench/run_log.js").RunEntry} RunEntry
 * @typedef {import("../../core/bench/error_messages.js").ErrorMessages} ErrorMessages
 */

/** The maximum number of entries. Older entries are removed. */
const MAX_ENTRIES = 400;

export class LogView {
  /** @param {ErrorMessages} errorMessages */
  constructor(errorMessages) {
    this.errorMessages = errorMessages;
    this.block = block("log");
    /** The runs since the last save. They appear in the log after the next save. */
    this.unloggedRuns = new RunLog();
    /**
     * @type {{ entry: RunEntry, node: HTMLElement } | null} the last entry of the log if it reports runs, otherwise null; the runs that
     *   follow are added to this entry
     */
    this.lastRunEntry = null;
  }

  /**
   * Collects runs, which appear in the log after the next save.
   * @param {RunEntry[]} entries
   */
  collectRuns(entries) {
    this.unloggedRuns.add(entries);
  }

  /** Removes and returns the collected runs. */
  takeRuns() {
    return this.unloggedRuns.take();
  }

  /**
   * @param {RunEntry[]} entries
   * @param {string} saveError the reason why the runs could not be saved; "" if they were saved
   */
  showRuns(entries, saveError) {
    if (entries.length === 0) return;
    const runLog = new RunLog();
    const { lastRunEntry } = this;
    // Consecutive runs share one entry.
    if (lastRunEntry && entries[0].runs > 0 && saveError === "" && lastRunEntry.node === this.block.lastElementChild) {
      runLog.add([lastRunEntry.entry]);
      lastRunEntry.node.remove();
    }
    runLog.add(entries);
    const runEntries = runLog.take();
    this.add(runEntries.map((entry) => this.makeEntry(formatLogEntry(entry), [entry.answer], saveError)));
    const lastEntry = runEntries[runEntries.length - 1];
    const node = this.block.lastElementChild;
    this.lastRunEntry = lastEntry.runs > 0 && saveError === "" && node instanceof HTMLElement ? { entry: lastEntry, node } : null;
  }

  /**
   * Shows lines that the user or a button has sent, and their answers.
   * @param {ServedInput[]} entries
   * @param {string} saveError the reason why the lines could not be saved; "" if they were saved
   */
  show(entries, saveError) {
    this.add(entries.map(({ line, textLines, answers }) => (
      this.makeEntry(textLines > 0 ? say.textLines(line, textLines) : line, answers, saveError))));
  }

  /** @param {HTMLElement[]} entries */
  add(entries) {
    if (entries.length === 0) return;
    const isAtEnd = this.block.scrollTop + this.block.clientHeight > this.block.scrollHeight - 30;
    this.block.append(...entries);
    while (this.block.children.length > MAX_ENTRIES) this.block.children[0].remove();
    if (isAtEnd) this.block.scrollTop = this.block.scrollHeight;
  }

  /**
   * @param {string} line
   * @param {string[]} answers
   * @param {string} saveError
   */
  makeEntry(line, answers, saveError) {
    const entry = element("div", {}, element("p", { className: "sent" }, line), ...answers.map((answer) => this.makeAnswer(answer)));
    if (saveError) entry.append(element("p", { className: "refused" }, say.lineNotSavedMessage(saveError)));
    return entry;
  }

  /** @param {string} answer */
  makeAnswer(answer) {
    return element("p", { className: parseRefusal(answer) ? "refused" : "" }, this.formatAnswer(answer));
  }

  /**
   * Returns the text that the console shows for an answer. If the answer is a numbered error, the text includes the error's message.
   * @param {string} answer
   */
  formatAnswer(answer) {
    const refusal = parseRefusal(answer);
    return refusal ? `${answer}: ${this.errorMessages.refusalMeaning(refusal.number)}` : answer;
  }

  clear() {
    this.unloggedRuns.take();
    this.block.replaceChildren();
  }
}
