// The console input. Enter sends lines, the arrow keys recall earlier lines, and a hint below shows how a line can continue.

import { Cell, block, button, byId, onClick } from "../ui/dom.js";
import { findMatchingLines } from "../../core/help/manual.js";
import * as say from "../../words/page.js";

/**
 * The callbacks of the console input.
 * @typedef {object} LinesCalls
 * @property {(lines: string) => Promise<string | null>} send Sends lines to the bench. Resolves to the first answer, or to null after a
 *   failure. A failure has already been reported.
 * @property {(answer: string) => string} formatAnswer Returns the text that the console shows for an answer. If the answer is a numbered
 *   error, the text includes the error's message.
 * @property {(query: string) => void} openHelp Opens the help and searches it for `query`.
 */

/** The maximum number of sent lines that the arrow keys can recall. */
const MAX_RECALLED_LINES = 200;
/** The maximum number of commands that the hint explains in full. */
const MAX_EXPLAINED_COMMANDS = 4;

export class LinesView {
  /**
   * @param {{ form: string, effect: string }[]} commandForms the forms of the bench's commands, with their explanations
   * @param {LinesCalls} calls
   */
  constructor(commandForms, calls) {
    this.commandForms = commandForms;
    this.calls = calls;
    this.textArea = byId("lines", HTMLTextAreaElement);
    this.hint = new Cell(block("lines-hint"));
    this.hint.set(say.LINES_HINT);
    /** The answer to the last line, for screen readers. */
    this.status = new Cell(block("answer-status"));
    /** @type {string[]} the sent lines, oldest first */
    this.sentLines = [];
    /** The index of the recalled line in `sentLines`, or the length of `sentLines` if no line is recalled. */
    this.recallIndex = 0;
    /** The text that was in the input before a sent line was recalled. */
    this.draft = "";
    onClick(button("send"), () => this.send());
    this.textArea.addEventListener("keydown", (event) => this.handleKey(event));
    this.textArea.addEventListener("input", () => this.showHint());
  }

  get text() {
    return this.textArea.value;
  }

  set text(text) {
    this.textArea.value = text;
    this.showHint();
  }

  /** @param {KeyboardEvent} event */
  handleKey(event) {
    if (event.isComposing) return;
    if (event.key === "Enter" && !event.shiftKey) {
      event.preventDefault();
      this.send();
    } else if (event.key === "ArrowUp" && this.isInFirstLine()) {
      this.recall(event, -1);
    } else if (event.key === "ArrowDown" && this.isInLastLine()) {
      this.recall(event, 1);
    } else if (event.key === " " && event.ctrlKey) {
      event.preventDefault();
      this.complete();
    }
  }

  isInFirstLine() {
    return !this.text.slice(0, this.textArea.selectionStart).includes("\n");
  }

  isInLastLine() {
    return !this.text.slice(this.textArea.selectionEnd).includes("\n");
  }

  /**
   * Recalls the previous or the next line that was sent. After the last sent line, restores the draft.
   * @param {KeyboardEvent} event
   * @param {number} step -1 or 1
   */
  recall(event, step) {
    const nextIndex = this.recallIndex + step;
    if (nextIndex < 0 || nextIndex > this.sentLines.length) return;
    event.preventDefault();
    if (this.recallIndex === this.sentLines.length) this.draft = this.text;
    this.recallIndex = nextIndex;
    this.text = nextIndex === this.sentLines.length ? this.draft : this.sentLines[nextIndex];
    this.textArea.setSelectionRange(this.text.length, this.text.length);
  }

  /** The last line of the input. */
  get lastLine() {
    return this.text.slice(this.text.lastIndexOf("\n") + 1);
  }

  /** Completes the typed word if exactly one command begins with it. */
  complete() {
    const words = new Set(findMatchingLines(this.commandForms, this.lastLine).map(({ form }) => form.split(" ")[0]));
    const [word] = words;
    if (words.size !== 1 || this.lastLine.includes(" ")) return;
    this.text = `${this.text.slice(0, this.text.lastIndexOf("\n") + 1)}${word} `;
  }

  showHint() {
    const matches = findMatchingLines(this.commandForms, this.lastLine);
    const shownForms = matches.slice(0, MAX_EXPLAINED_COMMANDS).map(({ form, effect }) => `${form}: ${effect}`);
    if (matches.length > MAX_EXPLAINED_COMMANDS) shownForms.push(matches.slice(MAX_EXPLAINED_COMMANDS).map(({ form }) => form).join(", "));
    this.hint.set(shownForms.length > 0 ? shownForms.join("\n") : say.LINES_HINT);
  }

  async send() {
    const lines = this.text;
    if (lines.trim() === "") return;
    this.rememberLines(lines);
    const words = lines.trim().split(/\s+/);
    if (words[0] === "help") {
      this.text = "";
      this.calls.openHelp(words.slice(1).join(" "));
      return;
    }
    this.status.set("");
    const answer = await this.calls.send(lines.endsWith("\n") ? lines : `${lines}\n`);
    if (answer !== null) this.status.set(this.calls.formatAnswer(answer));
    if (answer !== null && this.text === lines) this.text = "";
  }

  /** @param {string} lines */
  rememberLines(lines) {
    if (this.sentLines[this.sentLines.length - 1] !== lines) this.sentLines.push(lines);
    if (this.sentLines.length > MAX_RECALLED_LINES) this.sentLines.shift();
    this.recallIndex = this.sentLines.length;
  }
}
