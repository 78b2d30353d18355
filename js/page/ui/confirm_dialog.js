// A dialog that asks the user to confirm an action.

import { element } from "./dom.js";
import * as say from "../../words/page.js";

/**
 * @typedef {{ title: string, paragraphs: (string | HTMLElement)[], acceptLabel: string, declineLabel: string }} Question a question to the
 *   user; if `acceptLabel` is "", the dialog has no accept button
 */

const ACCEPTED = "accepted";

export class ConfirmDialog {
  constructor() {
    this.title = element("h2", { id: "ask-title" });
    this.body = element("div");
    this.acceptButton = this.makeButton(say.YES, ACCEPTED);
    this.declineButton = this.makeButton(say.NO, "");
    this.dialog = element("dialog", { id: "ask", "aria-labelledby": "ask-title" }, this.title, this.body,
      element("div", { className: "bar" }, this.acceptButton, this.declineButton));
    /** @type {(isAccepted: boolean) => void} */
    this.resolveQuestion = () => {};
    // If the dialog has been opened again, this event belongs to an earlier question, so ignore it.
    this.dialog.addEventListener("close", () => {
      if (!this.dialog.open) this.resolveQuestion(this.dialog.returnValue === ACCEPTED);
    });
    document.body.append(this.dialog);
  }

  /**
   * @param {string} text
   * @param {string} value the dialog's return value
   */
  makeButton(text, value) {
    const node = element("button", { type: "button" }, text);
    node.addEventListener("click", () => this.dialog.close(value));
    return node;
  }

  /**
   * Asks a question. Resolves to true if the user accepts. If another question is still open, that question first resolves to false.
   * @param {Question} question
   * @returns {Promise<boolean>}
   */
  ask({ title, paragraphs, acceptLabel, declineLabel }) {
    this.resolveQuestion(false);
    if (this.dialog.open) this.dialog.close("");
    this.title.textContent = title;
    this.body.replaceChildren(...paragraphs.map((part) => (typeof part === "string" ? element("p", {}, part) : part)));
    this.acceptButton.textContent = acceptLabel;
    this.acceptButton.hidden = acceptLabel === "";
    this.declineButton.textContent = declineLabel;
    this.dialog.returnValue = "";
    return new Promise((resolve) => {
      this.resolveQuestion = resolve;
      this.dialog.showModal();
    });
  }
}
