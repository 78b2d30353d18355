// The list of problems in all texts, and the number of problems. The number includes the common mistakes that were detected while time was
// running.

import { block, element, onClick } from "../ui/dom.js";
import * as say from "../../words/text.js";

/**
 * @typedef {import("../../core/text/sendable_text.js").TextError} TextError
 */

/**
 * The callbacks of the list of problems.
 * @typedef {object} ProblemCalls
 * @property {(name: string, error: TextError) => void} goTo Shows an error in a text. `name` is the name of the text's tab.
 * @property {(count: number) => void} showCount Shows the number of problems.
 */

export class ProblemsView {
  /** @param {ProblemCalls} calls */
  constructor(calls) {
    this.calls = calls;
    this.list = block("problem-list");
    this.emptyNote = block("problems-none");
    /** @type {Map<string, TextError[]>} the errors of each text, by the name of its tab */
    this.errors = new Map();
    /** The number of common mistakes detected while time was running. */
    this.mistakeCount = 0;
  }

  /**
   * @param {string} name the name of a text's tab
   * @param {TextError[]} errors all current errors of that text
   */
  setErrors(name, errors) {
    if (errors.length === 0 && (this.errors.get(name) || []).length === 0) return;
    this.errors.set(name, errors);
    this.list.replaceChildren(...[...this.errors].flatMap(([textName, textErrors]) => (
      textErrors.map((error) => this.makeEntry(textName, error)))));
    this.updateCount();
  }

  /** @param {number} mistakeCount the number of common mistakes detected while time was running */
  showMistakeCount(mistakeCount) {
    if (this.mistakeCount === mistakeCount) return;
    this.mistakeCount = mistakeCount;
    this.updateCount();
  }

  updateCount() {
    const count = [...this.errors.values()].reduce((sum, errors) => sum + errors.length, this.mistakeCount);
    this.emptyNote.hidden = count > 0;
    this.calls.showCount(count);
  }

  /**
   * @param {string} name
   * @param {TextError} error
   */
  makeEntry(name, error) {
    const button = element("button", { type: "button" }, element("b", {}, say.problemLocation(name, error.line)), error.words);
    onClick(button, () => this.calls.goTo(name, error));
    return element("li", {}, button);
  }
}
