// A bar with one input field above a text editor, for example for a line number or a new name.

import { Cell, element, onClick } from "../ui/dom.js";
import * as say from "../../words/text.js";

/**
 * A question to the user: `label` is the field's label, `value` the field's initial text, and `buttonLabel` the button's label. `act`
 * receives the typed text and returns "", or an error message if the text is not valid.
 * @typedef {{ label: string, value: string, buttonLabel: string, act: (text: string) => string }} BarQuestion
 */

export class FieldBar {
  /**
   * @param {HTMLElement} parent receives the bar as its first child
   * @param {() => void} onClose called after the bar has been closed
   */
  constructor(parent, onClose) {
    this.onClose = onClose;
    this.label = new Cell(element("span"));
    this.field = element("input", { autocomplete: "off", spellcheck: false });
    this.status = new Cell(element("p", { role: "status" }));
    this.submitButton = element("button", { type: "button", title: "Enter" }, say.GO);
    const closeButton = element("button", { type: "button", title: "Escape" }, say.CLOSE);
    this.bar = element("div", { role: "group", className: "search bar", hidden: true },
      element("label", {}, this.label.node, " ", this.field), this.submitButton, closeButton, this.status.node);
    parent.prepend(this.bar);
    /** @type {BarQuestion["act"]} */
    this.submit = () => "";
    onClick(this.submitButton, () => this.submitValue());
    onClick(closeButton, () => this.close());
    this.field.addEventListener("keydown", (event) => this.handleKey(event));
  }

  /** @param {BarQuestion} question */
  open({ label, value, buttonLabel, act: action }) {
    this.label.set(label);
    this.bar.setAttribute("aria-label", label);
    this.submitButton.textContent = buttonLabel;
    this.submit = action;
    this.status.set("");
    this.field.value = value;
    this.bar.hidden = false;
    this.field.focus();
    this.field.select();
  }

  submitValue() {
    const message = this.submit(this.field.value.trim());
    if (message === "") this.close();
    else this.status.set(message);
  }

  close() {
    this.bar.hidden = true;
    this.onClose();
  }

  /** @param {KeyboardEvent} event */
  handleKey(event) {
    if (event.key !== "Enter" && event.key !== "Escape") return;
    event.preventDefault();
    if (event.key === "Escape") this.close();
    else this.submitValue();
  }
}
