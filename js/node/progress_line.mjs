// The progress line of a long command on standard error, updated once per second. The line appears only on a terminal.
import { escapeControls } from "../core/text/control_escapes.js";

/** The time in milliseconds until the line appears, and between two updates. A command that takes less time does not show the line. */
const UPDATE_INTERVAL = 1000;
const MILLISECONDS_PER_SECOND = 1000;
/** The escape sequence that moves to the start of the line and clears it. */
const CLEAR_SEQUENCE = "\r\u001b[K";

export class ProgressLine {
  constructor() {
    this.isShown = false;
    /** @type {(seconds: number) => string} */
    this.makeText = () => "";
    this.startTime = 0;
    /** @type {NodeJS.Timeout | null} */
    this.timer = null;
    if (!process.stderr.isTTY) return;
    this.timer = setInterval(() => this.show(), UPDATE_INTERVAL);
    this.timer.unref();
    process.on("exit", () => this.clear());
  }

  /**
   * Starts a step of the command.
   * @param {(seconds: number) => string} makeText returns the text of the line, given the number of seconds since the step started
   */
  beginStep(makeText) {
    this.makeText = makeText;
    this.startTime = performance.now();
  }

  /** Writes the line. */
  show() {
    const seconds = Math.round((performance.now() - this.startTime) / MILLISECONDS_PER_SECOND);
    const text = escapeControls(this.makeText(seconds)).slice(0, (process.stderr.columns || 80) - 1);
    if (text === "") return;
    process.stderr.write(CLEAR_SEQUENCE + text);
    this.isShown = true;
  }

  /** Clears the line, so that other output can appear in its place. */
  clear() {
    if (this.isShown) process.stderr.write(CLEAR_SEQUENCE);
    this.isShown = false;
  }

  /** Clears the line and stops the updates. */
  end() {
    this.clear();
    if (this.timer) clearInterval(this.timer);
  }
}
