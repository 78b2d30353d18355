// The Tests tab: the tests with their errors, a button that runs them in the worker, and the results.

import { CancelledError } from "../../core/bench/bench_errors.js";
import { formatErrorCount } from "../../core/bench/error_messages.js";
import { button, onClick } from "../ui/dom.js";
import { TextTab } from "../text/text_tab.js";
import { completeTest, helpForTest, readTestForms } from "../../core/text/test_words.js";
import { testsTabMark, textErrorsMessage, testsSummary } from "../../words/test_results.js";
import { TestsView } from "./tests_view.js";
import * as say from "../../words/testing.js";

/**
 * @typedef {import("../../core/testing/test_preparation.js").ProjectTextError} ProjectTextError
 * @typedef {import("../../core/testing/test_preparation.js").Texts} Texts
 * @typedef {import("../../core/testing/test_suite.js").Report} Report
 * @typedef {import("../../core/testing/test_suite.js").TestedTexts} TestedTexts
 * @typedef {import("../../core/testing/test_run.js").Outcome} Outcome
 */

/**
 * The callbacks of the Tests tab. The tab's text editor also uses the callbacks `labels`, `handleEdit` and `reportFailure`.
 * @typedef {object} TestsCalls
 * @property {() => { boardText: string, programText: string }} texts Returns the current text of the board and of the source.
 * @property {() => string[]} labels Returns the labels of the program in ROM.
 * @property {(texts: TestedTexts) => Promise<ProjectTextError[]>} findErrors Resolves to the errors in all the texts.
 * @property {(texts: Texts) => Promise<string>} sample Resolves to a sample test for a board and a program.
 * @property {(texts: TestedTexts) => Promise<Report>} run Runs the tests. Resolves to their results. Rejects with `CancelledError` if the
 *   user cancels the run.
 * @property {(number: number) => string} describeRefusal Returns the message for a numbered error of the bench.
 * @property {(report: Report | null, programText: string) => void} showCounts Shows the execution counts of a program's lines in the
 *   margin; null removes the counts.
 * @property {(address: number) => void} goTo Shows an address in the source and in the disassembly.
 * @property {(name: string, file: Uint8Array, texts: TestedTexts) => void} open Opens a new session from a file, with the tested texts.
 * @property {(label: string, isSuccess?: boolean) => void} showMark Shows a short mark on the tab; "" removes it. If `isSuccess`, the mark
 *   reports a success.
 * @property {() => void} handleEdit Handles an edit of the tests.
 * @property {(error: unknown) => void} reportFailure Reports an error that a call threw.
 */

export class TestsTab {
  /**
   * @param {import("../../core/help/manual.js").ManualSection[]} manual
   * @param {TestsCalls} calls
   */
  constructor(manual, calls) {
    this.calls = calls;
    this.textTab = new TextTab({
      name: "tests",
      insertButton: "first-test",
      firstText: () => calls.sample(calls.texts()),
      forms: readTestForms(manual),
      describeWord: helpForTest,
      complete: completeTest,
    }, calls, {
      findErrors: () => calls.findErrors(this.texts),
      showErrorCount: (count) => this.showMark(count),
      send: () => this.run().catch(calls.reportFailure),
    });
    this.editor = this.textTab.editor;
    this.view = new TestsView({
      goTo: (line) => this.editor.editor.selectLines({ from: line, to: line }),
      goToAddress: (address) => calls.goTo(address),
      openFailure: (outcome) => this.openFailure(outcome),
    });
    /** @type {TestedTexts | null} the texts of the last run; null if there are no results */
    this.testedTexts = null;
    this.isRunning = false;
    /** The number of sessions opened so far. Test results that arrive for an earlier session are discarded. */
    this.sessionNumber = 0;
    onClick(button("clear-tests"), () => this.clear());
  }

  /** @returns {TestedTexts} */
  get texts() {
    return { ...this.calls.texts(), testText: this.editor.text };
  }

  /** Checks the tests. Called when a session has been opened, and when the tab is brought to the front. */
  refresh() {
    this.textTab.refresh();
  }

  /** @param {number} count the number of errors in the tests */
  showMark(count) {
    if (count > 0) this.calls.showMark(formatErrorCount(count));
    else if (!this.testedTexts) this.calls.showMark("");
  }

  /** Clears the results, because another session has been opened. */
  discardResults() {
    this.sessionNumber += 1;
    this.clear();
  }

  /** Shows the button that inserts a first test, if the opened session has no tests. */
  updateFirstTextOffer() {
    this.textTab.updateFirstTextOffer();
  }

  clear() {
    this.testedTexts = null;
    this.view.clear();
    this.editor.showMessage("");
    this.calls.showMark("");
    this.calls.showCounts(null, "");
    button("clear-tests").hidden = true;
  }

  async run() {
    if (this.isRunning) return;
    this.isRunning = true;
    const { texts, sessionNumber } = this;
    this.editor.showMessage("");
    try {
      const report = await this.calls.run(texts);
      if (sessionNumber === this.sessionNumber) this.show(report, texts);
    } catch (error) {
      if (!(error instanceof CancelledError)) throw error;
      this.editor.showMessage(say.TESTS_CANCELLED);
    } finally {
      this.isRunning = false;
    }
  }

  /**
   * @param {Report} report
   * @param {TestedTexts} texts
   */
  show(report, texts) {
    if (report.errors.length > 0) {
      this.clear();
      this.textTab.showErrors(report.errors);
      this.editor.showMessage(textErrorsMessage(report.errors, this.calls.describeRefusal));
      return;
    }
    this.testedTexts = texts;
    this.view.show(report);
    this.editor.showMessage(testsSummary(report.outcomes));
    this.calls.showMark(testsTabMark(report.outcomes), report.outcomes.every(({ failure }) => !failure));
    this.calls.showCounts(report, texts.programText);
    button("clear-tests").hidden = false;
  }

  /** @param {Outcome} outcome */
  openFailure({ name, failure }) {
    if (failure && failure.file && this.testedTexts) this.calls.open(`${name}, line ${failure.line}`, failure.file, this.testedTexts);
  }
}
