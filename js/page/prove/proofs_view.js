// The results of proofs: a row with the verdict of each property, and the progress.

import { Cell, Switch, block, makeButton, findDescendant, element } from "../ui/dom.js";
import { isDesiredVerdict, markOf, describeVerdict, progressSummary } from "../../words/prove_results.js";
import * as say from "../../words/prove.js";
import { lineReference } from "../../words/stops.js";

/**
 * @typedef {import("../../core/prove/counterexample.js").Counterexample} Counterexample
 * @typedef {import("../../core/prove/prover.js").Progress} Progress
 * @typedef {import("../../core/prove/bounded_proof.js").PropertyVerdict} PropertyVerdict
 *
 * The callbacks of the proof results.
 * @typedef {object} VerdictCalls
 * @property {(propertyVerdict: PropertyVerdict) => void} goTo Shows the line of a property in the properties text.
 * @property {(verdict: PropertyVerdict, counterexample: Counterexample) => void} openCounterexample Opens a new session
 *   in the state before the counterexample's last step.
 * @property {(counterexample: Counterexample) => void} addTest Adds a counterexample's test to the text in the Tests tab.
 */

/** A property's row. The verdict is inserted only once, so that buttons that the user is about to click are not replaced. */
class VerdictRow {
  /**
   * @param {PropertyVerdict} propertyVerdict
   * @param {VerdictCalls} calls
   */
  constructor(propertyVerdict, calls) {
    this.propertyVerdict = propertyVerdict;
    const { text, line, isGoal, verdict } = propertyVerdict;
    const mark = element("b", {});
    const statusText = element("span", { className: "time" });
    // A common mistake has no line in the properties text, because all programs are checked for it.
    const name = line === 0 ? element("span", { className: "name" }, text)
      : makeButton(text, () => calls.goTo(propertyVerdict), { className: "name", title: lineReference(line) });
    this.node = element("li", {}, element("p", {}, mark, " ", name, " ", statusText));
    this.mark = new Cell(mark);
    this.status = new Cell(statusText);
    this.litSwitch = new Switch((isOn) => mark.classList.toggle("lit", isOn));
    this.notOkSwitch = new Switch((isOn) => mark.classList.toggle("not-ok", isOn));
    if (verdict.kind === "found") this.node.append(...this.makeCounterexampleNodes(isGoal, verdict.counterexample, calls));
  }

  /**
   * @param {boolean} isGoal
   * @param {Counterexample} counterexample
   * @param {VerdictCalls} calls
   */
  makeCounterexampleNodes(isGoal, counterexample, calls) {
    const { isTest, text } = counterexample;
    const [openLabel, title] = isGoal ? [say.OPEN_STEPS_TO_GOAL, say.BEFORE_GOAL] : [say.OPEN_COUNTEREXAMPLE, say.BEFORE_BREAK];
    const addButtons = isTest ? [makeButton(say.ADD_TO_TESTS, () => calls.addTest(counterexample), { title: say.AT_END })] : [];
    const name = isTest ? say.SHOW_AS_TEST : say.COUNTEREXAMPLE_LINES;
    return [
      element("details", {}, element("summary", {}, name), element("pre", { tabIndex: 0 }, text.trimEnd())),
      element("p", { className: "bar" },
        makeButton(openLabel, () => calls.openCounterexample(this.propertyVerdict, counterexample), { title }), ...addButtons),
    ];
  }

  /** @param {boolean} isCurrent true if the verdict applies to the current texts */
  show(isCurrent) {
    const { propertyVerdict } = this;
    this.mark.set(isCurrent ? markOf(propertyVerdict) : "");
    this.status.set(isCurrent ? describeVerdict(propertyVerdict) : say.TEXTS_HAVE_CHANGED);
    this.litSwitch.set(isCurrent && propertyVerdict.verdict.kind === "proved" && isDesiredVerdict(propertyVerdict));
    this.notOkSwitch.set(isCurrent && propertyVerdict.verdict.kind !== "open" && !isDesiredVerdict(propertyVerdict));
  }
}

export class ProofsView {
  /** @param {VerdictCalls} calls */
  constructor(calls) {
    this.calls = calls;
    this.block = block("proof-results");
    this.list = block("proof-list");
    this.progress = block("proof-progress");
    this.bar = findDescendant(this.progress, "progress", HTMLProgressElement);
    this.progressText = new Cell(findDescendant(this.progress, "span", HTMLElement));
    /** @type {VerdictRow[]} */
    this.rows = [];
  }

  clear() {
    this.block.hidden = true;
    this.rows = [];
    this.list.replaceChildren();
  }

  /**
   * @param {Progress} progress
   * @param {number} maxStates the maximum number of states that the prover may visit for each property
   * @param {boolean} isRunning true if a proof is running
   * @param {(propertyVerdict: PropertyVerdict) => boolean} isCurrent returns true if a verdict applies to the current texts
   */
  show(progress, maxStates, isRunning, isCurrent) {
    const newRows = progress.verdicts.slice(this.rows.length).map((propertyVerdict) => new VerdictRow(propertyVerdict, this.calls));
    this.list.append(...newRows.map(({ node }) => node));
    this.rows.push(...newRows);
    for (const row of this.rows) row.show(isCurrent(row.propertyVerdict));
    this.progress.hidden = !isRunning;
    this.bar.max = maxStates;
    this.bar.value = progress.states;
    this.progressText.set(isRunning ? progressSummary(progress) : "");
    this.block.hidden = this.rows.length === 0 && !isRunning;
  }
}
