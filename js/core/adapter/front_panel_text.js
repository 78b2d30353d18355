// Reads the lamps and displays of a board as text, and reports when this text changes.

import { readItems } from "../bench/answers.js";
import { DisplayText } from "../board/display_text.js";
import { Face } from "../board/face.js";
import { LAMPS_FORECAST_QUERY, PerceivedText, hasScannedDisplay } from "../engine/perceived_text.js";

/** @typedef {import("../debug/debug_session.js").DebugSession} DebugSession */

export class FrontPanelText {
  /** @param {DebugSession} session */
  constructor(session) {
    this.session = session;
    const face = new Face(session.boardText);
    this.face = face;
    this.isScanned = hasScannedDisplay(face);
    this.displays = face.groups.filter(({ kind }) => kind === "display");
    this.lampNames = [...face.lamps].map(([lamp, { text }]) => ({ lamp, text }));
    this.displayText = new DisplayText(this.displays, this.lampNames);
    this.lastText = this.currentText();
  }

  /** The lamps as one mark per lamp: `*` if the lamp is on, `.` if it is off. */
  get marks() {
    return readItems(this.session.debugger.session.ask("lamps\n")[0]).join("");
  }

  /**
   * Returns the word `display`, the display text, and the names of the other lamps that are on. For a multiplexed display, the text
   * contains the digits that a person perceives. Without a display, returns the word `lamps`, the marks of all lamps, and the names of the
   * lamps that are on. Returns "" for a board without lamps.
   */
  currentText() {
    const { marks } = this;
    if (marks === "") return "";
    const { number, names } = this.isScanned ? this.perceivedText(marks.length) : this.displayText.read(marks);
    if (this.displays.length > 0) return `display ${number}${names && ` ${names}`}`;
    return `lamps ${marks}${names && ` ${names}`}`;
  }

  /**
   * Returns the displayed number and the lamp names that a person perceives on a front panel with a multiplexed display.
   * @param {number} count the number of lamps
   */
  perceivedText(count) {
    return new PerceivedText(this.face, count).read(this.session.debugger.session.ask(LAMPS_FORECAST_QUERY));
  }

  /**
   * Returns the current text if it has changed since the previous call; otherwise "". The first call returns the text if it has changed
   * since this object was created.
   */
  takeChange() {
    const currentText = this.currentText();
    if (currentText === this.lastText) return "";
    this.lastText = currentText;
    return currentText;
  }
}
