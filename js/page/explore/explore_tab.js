// The Properties tab: the properties with their errors, a button that searches for counterexamples in a separate worker, and the results.

import { formatErrorCount } from "../../core/bench/error_messages.js";
import { Cell, button, field, onClick } from "../ui/dom.js";
import { TextTab } from "../text/text_tab.js";
import { completeProperty, createInitialProperties, helpForProperty, readPropertyForms } from "../../core/text/property_words.js";
import { textErrorsMessage } from "../../words/test_results.js";
import { ExploreView } from "./explore_view.js";
import { Proofs } from "../prove/proofs.js";
import { reportTabMark, finalSummary, progressSummary } from "../../words/explore_results.js";
import * as say from "../../words/explore.js";

/**
 * @typedef {import("../../core/testing/test_preparation.js").ProjectTextError} ProjectTextError
 * @typedef {import("../../core/explore/sliced_search.js").RunOptions} RunOptions
 * @typedef {import("../../core/explore/sliced_search.js").ExploredTexts} ExploredTexts
 * @typedef {import("../../core/explore/sliced_search.js").Progress} Progress
 * @typedef {import("../../core/explore/report.js").Report} Report
 * @typedef {import("../../core/bench/task_worker.js").TaskResult} TaskResult
 * @typedef {import("../prove/proofs.js").ProofsCalls} ProofsCalls
 *
 * The results of a search. `texts` are the texts that the search used. `report` is null before the first progress report. `files` contains
 * the session file of each counterexample, by the number of its property. `isStopped` is true if the user stopped the search.
 * @typedef {{ texts: ExploredTexts, report: Report | null, files: Map<number, Uint8Array>, isStopped: boolean }} SearchResults
 */

/**
 * The callbacks of the Properties tab. The tab's text editor also uses the callbacks `labels`, `texts`, `handleEdit` and `reportFailure`.
 * @typedef {object} ExploreCalls
 * @property {() => Omit<ExploredTexts, "propertiesText">} texts Returns the current text of the board, of the source and of the tests.
 * @property {() => string[]} labels Returns the labels of the program in ROM.
 * @property {(texts: ExploredTexts) => Promise<ProjectTextError[]>} findErrors Resolves to the errors in all the texts.
 * @property {(texts: ExploredTexts, options: RunOptions, signal: AbortSignal, showProgress: (progress: Progress) => void) =>
 *   Promise<TaskResult>} explore Searches until the time is up, every property has a counterexample, or `signal` is aborted. Calls
 *   `showProgress` with each progress report. Resolves to the errors in the texts and whether the search was stopped.
 * @property {(number: number) => string} describeRefusal Returns the message for a numbered error of the bench.
 * @property {(line: number) => void} goToSource Shows a line of the source. Lines count from 1.
 * @property {(name: string, file: Uint8Array, texts: ExploredTexts) => void} open Opens a new session from a file, with the texts of the
 *   search.
 * @property {ProofsCalls["prove"]} prove Proves properties.
 * @property {ProofsCalls["open"]} openWithLines Opens a new session with the texts of a proof, and executes lines in it.
 * @property {(test: string) => string} addTest Adds a test to the text in the Tests tab. Returns the message about the result.
 * @property {(label: string, isSuccess?: boolean) => void} showMark Shows a short mark on the tab; "" removes it. If `isSuccess`, the mark
 *   reports a success.
 * @property {() => void} handleEdit Handles an edit of the properties.
 * @property {(error: unknown) => void} reportFailure Reports an error that a call threw.
 */

const NUMBER_FIELDS = [
  { id: "explore-seconds", max: 86400, hint: say.SECONDS_RANGE },
  { id: "explore-seed", max: 99999999, hint: say.SEED_RANGE },
];

export class ExploreTab {
  /**
   * @param {import("../../core/help/manual.js").ManualSection[]} manual
   * @param {ExploreCalls} calls
   */
  constructor(manual, calls) {
    this.calls = calls;
    this.textTab = new TextTab({
      name: "properties",
      insertButton: "first-properties",
      firstText: createInitialProperties,
      forms: readPropertyForms(manual),
      describeWord: helpForProperty,
      complete: completeProperty,
    }, calls, {
      findErrors: () => calls.findErrors(this.texts),
      showErrorCount: (count) => this.showMark(count),
      send: () => this.exploreOrStop(),
      prove: () => this.proofs.proveOrCancel(),
    });
    this.editor = this.textTab.editor;
    this.view = new ExploreView({
      goTo: (line) => this.editor.editor.selectLines({ from: line, to: line }),
      goToSource: (line) => this.goToSource(line),
      openCounterexample: (property) => this.openCounterexample(property),
      addTest: (property) => this.addTest(property),
    });
    /** The last search results of each session since the page was opened, by session id. */
    this.resultsBySession = /** @type {Map<string, SearchResults>} */ (new Map());
    /** The id of the current session. */
    this.sessionId = "";
    /** The last message about the search. */
    this.lastMessage = "";
    /** @type {AbortController | null} the controller that stops the current search; null if no search is running */
    this.controller = null;
    this.exploreButton = new Cell(button("explore"));
    this.exploreButton.set(say.SEARCH);
    onClick(button("clear-finds"), () => this.clear());
    /** The number of errors in the properties, as shown on the tab. */
    this.errorCount = 0;
    this.proofs = this.makeProofs();
  }

  /** @returns {Proofs} */
  makeProofs() {
    const { calls, editor } = this;
    return new Proofs({
      texts: () => this.texts,
      prove: calls.prove,
      goTo: (line) => editor.editor.selectLines({ from: line, to: line }),
      showMessage: (message) => editor.showMessage(message),
      showErrors: (errors) => this.showErrors(errors),
      open: calls.openWithLines,
      addTest: calls.addTest,
      handleVerdictChange: () => this.handleVerdictChange(),
      reportFailure: calls.reportFailure,
    });
  }

  /** @returns {ExploredTexts} */
  get texts() {
    return { ...this.calls.texts(), propertiesText: this.editor.text };
  }

  /** The search results of the current session, or null if there are none. */
  get currentResults() {
    return this.resultsBySession.get(this.sessionId) || null;
  }

  /** Checks the properties. Called when a session has been opened, and when the tab is brought to the front. */
  refresh() {
    this.textTab.refresh();
  }

  /** @param {number} count the number of errors in the properties */
  showMark(count) {
    const { currentResults } = this;
    this.errorCount = count;
    const reportMark = currentResults && currentResults.report ? reportTabMark(currentResults.report) : "";
    if (count > 0) this.calls.showMark(formatErrorCount(count));
    else this.calls.showMark(reportMark || this.proofs.tabMark, reportMark === "" && this.proofs.hasDesiredVerdicts);
  }

  /**
   * Handles the opening of another session: stops the search and shows the earlier results of the opened session.
   * @param {string} sessionId the id of the opened session
   */
  handleSessionOpening(sessionId) {
    this.stopSearch();
    this.sessionId = sessionId;
    this.view.clear();
    this.show();
    this.proofs.handleSessionOpening(sessionId);
    this.textTab.updateFirstTextOffer();
  }

  /** Stops the search, and clears the counterexamples and the verdicts. */
  clear() {
    this.stopSearch();
    this.resultsBySession.delete(this.sessionId);
    this.view.clear();
    this.proofs.clear();
    this.show();
  }

  /** Updates the tab's mark and the button that clears results. */
  handleVerdictChange() {
    this.showMark(this.errorCount);
    this.updateClearButton();
  }

  /** Shows the button that clears results if there are results and nothing is running. */
  updateClearButton() {
    const { proofs } = this;
    const isRunning = this.controller !== null || proofs.controller !== null;
    button("clear-finds").hidden = isRunning || !(this.currentResults || proofs.currentResults);
  }

  /** Shows the session's results so far. */
  show() {
    const { currentResults } = this;
    const isRunning = this.controller !== null;
    this.exploreButton.set(isRunning ? say.STOP : say.SEARCH);
    this.updateClearButton();
    if (currentResults && currentResults.report) this.view.show(currentResults.report, isRunning);
    this.showMark(0);
    this.showMessage(this.describeSearch(currentResults, isRunning));
  }

  /**
   * Shows a message about the search if the message has changed. An unchanged message is not shown again, so that it does not replace a
   * later message about another action.
   * @param {string} message
   */
  showMessage(message) {
    if (message !== this.lastMessage) this.editor.showMessage(message);
    this.lastMessage = message;
  }

  /**
   * @param {SearchResults | null} currentResults
   * @param {boolean} isRunning
   */
  describeSearch(currentResults, isRunning) {
    const report = currentResults && currentResults.report;
    if (report) return isRunning ? progressSummary(report) : finalSummary(report, currentResults.isStopped);
    return isRunning ? say.STARTING : "";
  }

  stopSearch() {
    if (this.controller) this.controller.abort();
  }

  exploreOrStop() {
    if (this.controller) this.stopSearch();
    else this.explore().catch(this.calls.reportFailure);
  }

  /**
   * Returns the duration and the seed of the search. If a field has no valid number, shows a message and returns null.
   * @returns {RunOptions | null}
   */
  readRunOptions() {
    const invalidFields = NUMBER_FIELDS.filter(({ id, max }) => {
      const { value } = field(id);
      const isInvalid = !/^\d{1,8}$/.test(value.trim()) || Number(value) < 1 || Number(value) > max;
      field(id).setAttribute("aria-invalid", String(isInvalid));
      return isInvalid;
    });
    this.editor.showMessage(invalidFields.map(({ hint }) => hint).join(" "));
    const [seconds, seed] = NUMBER_FIELDS.map(({ id }) => Number(field(id).value));
    return invalidFields.length > 0 ? null : { seconds, seed };
  }

  async explore() {
    const options = this.readRunOptions();
    if (!options) return;
    const { texts, sessionId } = this;
    /** @type {SearchResults} */
    const results = { texts, report: null, files: new Map(), isStopped: false };
    const controller = new AbortController();
    this.controller = controller;
    this.resultsBySession.set(sessionId, results);
    this.view.clear();
    this.show();
    let taskResult = /** @type {TaskResult} */ ({ errors: [], isStopped: true });
    try {
      taskResult = await this.calls.explore(texts, options, controller.signal, (progress) => this.handleProgress(results, progress));
    } finally {
      this.controller = null;
      results.isStopped = taskResult.isStopped;
      if (!results.report) this.resultsBySession.delete(sessionId);
      this.show();
    }
    if (taskResult.errors.length > 0) this.showErrors(taskResult.errors);
    else if (!results.report) this.editor.showMessage(say.STOPPED_BEFORE_START);
  }

  /** @param {ProjectTextError[]} errors the errors that prevented the search */
  showErrors(errors) {
    this.textTab.showErrors(errors);
    this.editor.showMessage(textErrorsMessage(errors, this.calls.describeRefusal));
  }

  /**
   * @param {SearchResults} results
   * @param {Progress} progress
   */
  handleProgress(results, { report, found }) {
    results.report = report;
    for (const { property, file } of found) results.files.set(property, file);
    if (results === this.currentResults) this.show();
  }

  /** @param {number} line */
  goToSource(line) {
    const { currentResults } = this;
    if (currentResults && currentResults.texts.programText === this.calls.texts().programText) this.calls.goToSource(line);
    else this.editor.showMessage(say.SOURCE_HAS_CHANGED);
  }

  /** @param {number} property the number of the property, from 0 */
  openCounterexample(property) {
    const { currentResults } = this;
    const file = currentResults && currentResults.files.get(property);
    const report = currentResults && currentResults.report;
    if (report && file) this.calls.open(report.properties[property].text, file, currentResults.texts);
  }

  /** @param {number} property the number of the property, from 0 */
  addTest(property) {
    const { currentResults } = this;
    const counterexample = currentResults && currentResults.report && currentResults.report.properties[property].found;
    if (counterexample) this.editor.showMessage(this.calls.addTest(counterexample.test));
  }
}
