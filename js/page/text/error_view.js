// The errors in a text. Each error has a mark in the margin of its line, an underlined range, and an entry in the list below the text.

import { element, onClick } from "../ui/dom.js";
import { makeUnderlineMark } from "./line_layers.js";
import { lineReference } from "../../words/stops.js";

/**
 * @typedef {import("./line_editor.js").LineEditor} LineEditor
 * @typedef {import("./line_marks.js").LineMarks} LineMarks
 * @typedef {import("../../core/text/sendable_text.js").TextError} TextError
 */

export class ErrorView {
  /**
   * @param {LineEditor} editor
   * @param {LineMarks} marks
   * @param {HTMLElement} list
   * @param {(error: TextError) => void} goTo moves the caret to an error
   */
  constructor(editor, marks, list, goTo) {
    this.editor = editor;
    this.marks = marks;
    this.list = list;
    this.goTo = goTo;
    /** @type {TextError[]} */
    this.errors = [];
    list.hidden = true;
  }

  /**
   * @param {TextError[]} errors
   * @param {string} footnote the text below the last error
   */
  show(errors, footnote = "") {
    if (errors.length === 0 && this.errors.length === 0) return;
    this.errors = errors;
    /** @type {Map<number, string>} */
    const messages = new Map();
    for (const error of errors) messages.set(error.line, [messages.get(error.line), error.words].filter(Boolean).join("; "));
    this.marks.showTexts("faults", (line) => (messages.has(line) ? "!" : ""), (line) => messages.get(line) || "");
    this.editor.showErrors(errors.flatMap((error) => this.makeUnderlines(error)));
    this.list.replaceChildren(...errors.map((error) => this.makeEntry(error)), ...(footnote ? [element("li", {}, footnote)] : []));
    this.list.hidden = errors.length === 0;
  }

  /**
   * Returns a list with the range to underline for an error. The list is empty if the line is empty.
   * @param {TextError} error
   */
  makeUnderlines({ line, from, to, words }) {
    const length = (this.editor.getLine(line - 1) || "").length;
    // A missing word has an empty range, so underline the character before it.
    const startColumn = to > from ? from : Math.max(0, Math.min(from, length) - 1);
    const endColumn = Math.max(to, startColumn + 1);
    const [startOffset, endOffset] = [startColumn, endColumn].map((ch) => this.editor.offset({ line: line - 1, ch }));
    return startOffset < endOffset ? [makeUnderlineMark("fault", words).range(startOffset, endOffset)] : [];
  }

  /** @param {TextError} error */
  makeEntry(error) {
    const button = element("button", { type: "button" }, element("b", {}, `${lineReference(error.line)}: `), error.words);
    onClick(button, () => this.goTo(error));
    return element("li", {}, button);
  }

  /**
   * Returns the message of the error at a position, or "" if there is none.
   * @param {import("./line_editor.js").Position} position
   */
  messageAt({ line, ch }) {
    const match = this.errors.find((error) => error.line === line + 1 && ch >= error.from && ch <= Math.max(error.to, error.from + 1));
    return match ? match.words : "";
  }
}
