// Proofs of properties: a button that proves them for all inputs in a separate worker, and the verdicts. A verdict is visible only while
// it applies to the current texts.

import { Cell, button, field, onClick } from "../ui/dom.js";
import { findPropertyLine, isStillValid } from "../../core/prove/verdict_validity.js";
import { isDesiredVerdict, proofsTabMark, finalSummary } from "../../words/prove_results.js";
import * as say from "../../words/prove.js";
import { ProofsView } from "./proofs_view.js";

/**
 * @typedef {import("../../core/explore/sliced_search.js").ExploredTexts} ExploredTexts
 * @typedef {import("../../core/bench/task_worker.js").TaskResult} TaskResult
 * @typedef {import("../../core/prove/prover.js").Progress} Progress
 * @typedef {import("../../core/prove/bounded_proof.js").PropertyVerdict} PropertyVerdict
 * @typedef {import("../../core/testing/test_preparation.js").ProjectTextError} ProjectTextError
 *
 * The proof of a session's properties: the texts that it used, the maximum number of states that the prover may visit for each property,
 * and the progress.
 * @typedef {{ texts: ExploredTexts, maxStates: number, progress: Progress }} ProofResults
 *
 * The callbacks of Proofs.
 * @typedef {object} ProofsCalls
 * @property {() => ExploredTexts} texts Returns the current texts.
 * @property {(texts: ExploredTexts, maxStates: number, signal: AbortSignal, report: (progress: Progress) => void) => Promise<TaskResult>}
 *   prove Proves properties, visiting at most `maxStates` states for each of them. Calls `report` with each progress report. Resolves to
 *   the errors in the texts and whether `signal` has cancelled the proof.
 * @property {(line: number) => void} goTo Shows a line of the properties text. Lines count from 1.
 * @property {(message: string) => void} showMessage Shows a message next to the buttons.
 * @property {(errors: ProjectTextError[]) => void} showErrors Shows the errors that prevented the proof.
 * @property {(name: string, lines: string, texts: ExploredTexts, message: string) => Promise<void>} open Opens a new session with `texts`,
 *   executes lines in it, and shows a message.
 * @property {(test: string) => string} addTest Adds a test to the text in the Tests tab. Returns the message about the result.
 * @property {() => void} handleVerdictChange Called after the verdicts have changed; for example, updates the mark on the tab.
 * @property {(error: unknown) => void} reportFailure Reports an error that a call threw.
 */

const MAX_STATES = 999999999;

export class Proofs {
  /** @param {ProofsCalls} calls */
  constructor(calls) {
    this.calls = calls;
    this.view = new ProofsView({
      goTo: ({ text }) => {
        const line = findPropertyLine(text, calls.texts().propertiesText);
        if (line > 0) calls.goTo(line);
      },
      openCounterexample: ({ text, isGoal }, { linesBefore }) => {
        const { currentResults } = this;
        const description = isGoal ? say.nextStepReaches(text) : say.nextStepBreaks(text);
        if (currentResults) calls.open(text, linesBefore, currentResults.texts, description).catch(calls.reportFailure);
      },
      addTest: (counterexample) => calls.showMessage(calls.addTest(counterexample.text)),
    });
    /** The last proof results of each session since the page was opened, by session id. */
    this.resultsBySession = /** @type {Map<string, ProofResults>} */ (new Map());
    /** The id of the current session. */
    this.sessionId = "";
    /** @type {AbortController | null} the controller that cancels the current proof; null if no proof is running */
    this.controller = null;
    this.button = new Cell(button("prove"));
    this.button.set(say.PROVE);
    onClick(button("prove"), () => this.proveOrCancel());
  }

  /** The proof results of the current session, or null if there are none. */
  get currentResults() {
    return this.resultsBySession.get(this.sessionId) || null;
  }

  /**
   * Handles the opening of another session: cancels the proof and shows the earlier results of the opened session.
   * @param {string} sessionId the id of the opened session
   */
  handleSessionOpening(sessionId) {
    this.cancel();
    this.sessionId = sessionId;
    this.view.clear();
    this.show();
  }

  /** Cancels the proof, and clears the verdicts. */
  clear() {
    this.cancel();
    this.resultsBySession.delete(this.sessionId);
    this.view.clear();
    this.show();
  }

  /** Updates the verdicts after an edit. A verdict that no longer applies is hidden until the user restores the proved texts. */
  handleEdit() {
    if (this.currentResults) this.show();
  }

  /** The verdicts that apply to the current texts. */
  get currentVerdicts() {
    const { currentResults } = this;
    return currentResults ? currentResults.progress.verdicts.filter(this.makeCurrentVerdictFilter(currentResults)) : [];
  }

  /** The short mark that the tab shows for the current verdicts. */
  get tabMark() {
    return this.currentResults ? proofsTabMark(this.currentVerdicts) : "";
  }

  /** True if no property has a counterexample, and no goal is proved unreachable. Only current verdicts count. */
  get hasDesiredVerdicts() {
    return this.currentVerdicts.every((propertyVerdict) => propertyVerdict.verdict.kind === "open" || isDesiredVerdict(propertyVerdict));
  }

  /**
   * Returns a function that returns true if a verdict applies to the current texts.
   * @param {ProofResults} currentResults
   * @returns {(propertyVerdict: PropertyVerdict) => boolean}
   */
  makeCurrentVerdictFilter(currentResults) {
    const currentTexts = this.calls.texts();
    return (propertyVerdict) => isStillValid(propertyVerdict, currentResults.texts, currentTexts);
  }

  show() {
    const { currentResults } = this;
    const isRunning = this.controller !== null;
    this.button.set(isRunning ? say.CANCEL : say.PROVE);
    if (currentResults) {
      this.view.show(currentResults.progress, currentResults.maxStates, isRunning, this.makeCurrentVerdictFilter(currentResults));
    }
    this.calls.handleVerdictChange();
  }

  cancel() {
    if (this.controller) this.controller.abort();
  }

  proveOrCancel() {
    if (this.controller) this.cancel();
    else this.prove().catch(this.calls.reportFailure);
  }

  /**
   * Returns the maximum number of states that the prover may visit for each property. If the field has no valid number, shows a message and
   * returns 0.
   */
  readMaxStates() {
    const { value } = field("prove-states");
    const isNumber = /^\d{1,9}$/.test(value.trim()) && Number(value) >= 1 && Number(value) <= MAX_STATES;
    field("prove-states").setAttribute("aria-invalid", String(!isNumber));
    this.calls.showMessage(isNumber ? "" : say.STATES_RANGE);
    return isNumber ? Number(value) : 0;
  }

  async prove() {
    const maxStates = this.readMaxStates();
    if (maxStates === 0) return;
    const { calls, sessionId } = this;
    const texts = calls.texts();
    /** @type {ProofResults} */
    const results = { texts, maxStates, progress: { verdicts: [], count: 0, states: 0 } };
    const controller = new AbortController();
    this.controller = controller;
    this.resultsBySession.set(sessionId, results);
    this.view.clear();
    this.show();
    let taskResult = /** @type {TaskResult} */ ({ errors: [], isStopped: true });
    try {
      taskResult = await calls.prove(texts, maxStates, controller.signal, (progress) => {
        results.progress = progress;
        if (results === this.currentResults) this.show();
      });
    } finally {
      this.controller = null;
      if (results.progress.verdicts.length === 0) this.resultsBySession.delete(sessionId);
      if (sessionId === this.sessionId) this.finish(results, taskResult);
    }
  }

  /**
   * @param {ProofResults} results
   * @param {TaskResult} taskResult
   */
  finish({ progress: { verdicts } }, { errors, isStopped }) {
    if (verdicts.length === 0) this.view.clear();
    this.show();
    if (errors.length > 0) this.calls.showErrors(errors);
    else if (verdicts.length > 0) this.calls.showMessage(finalSummary(verdicts, isStopped));
    else this.calls.showMessage(isStopped ? say.CANCELLED_EARLY : "");
  }
}
