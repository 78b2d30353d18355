// Puts the lines of an example or a file into the console's input. If these lines replace text that the user typed, a notice offers to
// restore the text.

import { byId } from "../ui/dom.js";
import * as say from "../../words/session.js";

/** @typedef {import("../ui/notice.js").Notice} Notice */

export class OfferedLines {
  /** @param {Notice} notice */
  constructor(notice) {
    this.notice = notice;
    this.textArea = byId("lines", HTMLTextAreaElement);
    /** The lines that this class last put into the input. */
    this.lastOfferedText = "";
  }

  /** @param {string} lines the lines to put into the input; "" if the new session has none */
  offer(lines) {
    const userText = this.textArea.value;
    const hasUserText = userText.trim() !== "" && userText !== this.lastOfferedText;
    this.lastOfferedText = lines;
    if (hasUserText && lines === "") return;
    this.setLines(lines);
    if (!hasUserText) return;
    this.notice.show(say.LINES_REPLACED, "undo",
      { label: say.UNDO, act: () => this.setLines(userText) });
  }

  /** @param {string} lines */
  setLines(lines) {
    this.textArea.value = lines;
    this.textArea.dispatchEvent(new Event("input"));
  }
}
