// The search bar above a text. The bar finds the next and previous match, counts matches, and replaces matches.

import { Cell, element, onClick } from "../ui/dom.js";
import * as say from "../../words/text.js";

/**
 * @typedef {import("./line_editor.js").LineEditor} LineEditor
 * @typedef {{ from: number, to: number }} Span a range of offsets in the text
 */

export class SearchBar {
  /**
   * @param {LineEditor} editor
   * @param {HTMLElement} parent receives the bar as its first child
   * @param {string} label the name of the text
   */
  constructor(editor, parent, label) {
    this.editor = editor;
    this.field = element("input", { "type": "search", "aria-label": say.searchIn(label), "autocomplete": "off", "spellcheck": false });
    this.status = new Cell(element("p", { role: "status" }));
    const previousButton = element("button", { type: "button", title: say.SHIFT_ENTER }, say.PREVIOUS);
    const nextButton = element("button", { type: "button", title: "Enter" }, say.NEXT);
    const closeButton = element("button", { type: "button", title: "Escape" }, say.CLOSE);
    this.replaceField = element("input", {
      "aria-label": say.REPLACE_WITH, "placeholder": say.REPLACE_WITH_HINT, "autocomplete": "off", "spellcheck": false,
    });
    const replaceButton = element("button", { type: "button", title: say.REPLACE_TITLE }, say.REPLACE);
    const replaceAllButton = element("button", { type: "button" }, say.REPLACE_ALL);
    this.replaceBar = element("div", { className: "bar", hidden: true }, this.replaceField, replaceButton, replaceAllButton);
    this.bar = element("div", { role: "search", className: "search bar", hidden: true },
      this.field, previousButton, nextButton, closeButton, this.status.node, this.replaceBar);
    parent.prepend(this.bar);
    onClick(replaceButton, () => this.replace());
    onClick(replaceAllButton, () => this.replaceAll());
    this.replaceField.addEventListener("keydown", (event) => this.handleKey(event, () => this.replace()));
    onClick(previousButton, () => this.goToMatch(true));
    onClick(nextButton, () => this.goToMatch(false));
    onClick(closeButton, () => this.close());
    this.field.addEventListener("input", () => this.goToMatch(false, this.editor.selectedRange.from));
    this.field.addEventListener("keydown", (event) => this.handleKey(event, (isBackward) => this.goToMatch(isBackward)));
  }

  /**
   * Opens the bar. The query is the selected text if it is within one line, otherwise the last query.
   * @param {boolean} [showsReplacement] true to show the replacement field
   */
  open(showsReplacement = false) {
    this.replaceBar.hidden = !showsReplacement;
    const selectedText = this.editor.getSelection();
    if (selectedText && !selectedText.includes("\n")) this.field.value = selectedText;
    this.bar.hidden = false;
    this.field.focus();
    this.field.select();
  }

  close() {
    this.bar.hidden = true;
    this.status.set("");
    this.editor.focus();
  }

  /**
   * @param {KeyboardEvent} event
   * @param {(isBackward: boolean) => void} action
   */
  handleKey(event, action) {
    if (event.key !== "Enter" && event.key !== "Escape") return;
    event.preventDefault();
    if (event.key === "Escape") this.close();
    else action(event.shiftKey);
  }

  /** Replaces the selection if it is a match, then selects the next match. */
  replace() {
    const { editor } = this;
    const query = this.field.value;
    const isSelected = query !== "" && editor.getSelection().toLowerCase() === query.toLowerCase();
    if (isSelected) editor.replaceSelection(this.replaceField.value);
    this.goToMatch(false);
  }

  /** Replaces all matches, as one undo step. */
  replaceAll() {
    const query = this.field.value;
    if (query === "") return;
    const spans = this.findSpans(query);
    const count = spans.length;
    if (count > 0) this.editor.edit([...spans].reverse().map((span) => ({ ...span, insert: this.replaceField.value })));
    this.status.set(count === 0 ? say.NOT_FOUND : say.replacedMessage(count.toLocaleString("en")));
  }

  /**
   * Selects the next or previous match, ignoring case. The search wraps around at the ends of the text.
   * @param {boolean} isBackward true to select the previous match
   * @param {number} startOffset the offset at which the search begins
   */
  goToMatch(isBackward, startOffset = this.editor.selectedRange[isBackward ? "from" : "to"]) {
    const query = this.field.value;
    if (query === "") {
      this.status.set("");
      return;
    }
    const { editor } = this;
    const spans = this.findSpans(query);
    const previousMatch = spans.filter((span) => span.to <= startOffset).pop();
    const match = (isBackward ? previousMatch : spans.find((span) => span.from >= startOffset)) || spans[isBackward ? spans.length - 1 : 0];
    this.status.set(match ? say.matchPosition(spans.indexOf(match) + 1, spans.length) : say.NOT_FOUND);
    if (!match) return;
    editor.setSelection(editor.position(match.from), editor.position(match.to));
    editor.scrollIntoView(editor.position(match.to), 60);
  }

  /**
   * Returns all non-overlapping matches, ignoring case.
   * @param {string} query
   */
  findSpans(query) {
    const pattern = new RegExp(query.replace(/[.*+?^${}()|[\]\\]/g, "\\$&"), "giu");
    return [...this.editor.getValue().matchAll(pattern)].map(({ 0: text, index = 0 }) => ({ from: index, to: index + text.length }));
  }
}
