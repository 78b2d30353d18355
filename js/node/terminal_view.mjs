// Shows the debugger's view (js/core/prompt/view.js) on a terminal. The view occupies the upper rows, and commands scroll in the rows below. On a
// terminal that cannot move its cursor (TERM=dumb), this module prints the view after each command instead. With TERM=dumb or NO_COLOR, the
// view has no colours.
import { MIN_COLUMNS, MIN_ROWS, View, chooseViewSize } from "../core/prompt/view.js";
import { isDumb, makePainter } from "./terminal.mjs";

const REVERSE = 7;
const BOLD = 1;
const YELLOW = 33;
const TOO_SMALL_MESSAGE = `the view needs a terminal of ${MIN_COLUMNS} columns and ${MIN_ROWS} rows at least`;

export class TerminalView {
  /**
   * Creates a hidden view.
   * @param {import("../core/prompt/debugger_prompt.js").Prompt} prompt
   * @param {import("node:tty").WriteStream} output
   * @param {Record<string, string | undefined>} env
   * @param {() => void} showPrompt shows the prompt again at the cursor
   */
  constructor(prompt, output, env, showPrompt) {
    this.view = new View(prompt);
    this.output = output;
    this.showPrompt = showPrompt;
    this.isDumb = isDumb(env);
    const paint = makePainter(env);
    this.highlights = { head: paint(REVERSE), nextInstruction: paint(BOLD), changedValue: paint(YELLOW) };
    this.isOn = false;
    /** The number of rows that the view currently occupies. */
    this.rows = 0;
  }

  get size() {
    const { rows = 0, columns = 0 } = this.output;
    return chooseViewSize(rows, columns);
  }

  /**
   * Shows or hides the view. Returns the reason why the view cannot be shown, or "".
   * @param {boolean} isOn
   */
  setVisible(isOn) {
    if (isOn === this.isOn) return "";
    if (isOn && !this.size) return TOO_SMALL_MESSAGE;
    this.isOn = isOn;
    if (isOn) this.reserveRows();
    else this.leave();
    return "";
  }

  /** Toggles the view. Returns the reason why it cannot be shown, or "". */
  toggle() {
    return this.setVisible(!this.isOn);
  }

  /** Clears the terminal, and limits scrolling to the rows below the view. */
  reserveRows() {
    const { size, output } = this;
    if (this.isDumb) return;
    if (!size) {
      this.leave();
      return;
    }
    this.rows = size.rows;
    output.write(`\x1b[2J\x1b[${size.rows + 1};${output.rows}r\x1b[${output.rows};1H`);
  }

  /** Draws the view without moving the cursor. */
  draw() {
    const { size, output } = this;
    if (!this.isOn || !size) return;
    const lines = this.view.buildLines(size, this.highlights);
    const rowTexts = lines.map((line, index) => `\x1b[${index + 1};1H\x1b[K${line}`).join("");
    output.write(this.isDumb ? `${lines.join("\n")}\n` : `\x1b7\x1b[?7l${rowTexts}\x1b[?7h\x1b8`);
  }

  /** Redraws the view and the prompt after a resize, or after other programs have used the terminal. */
  redraw() {
    if (!this.isOn || this.isDumb) return;
    this.reserveRows();
    this.draw();
    this.showPrompt();
  }

  /** Clears the view's rows, and lets the whole terminal scroll again. */
  leave() {
    if (this.rows === 0) return;
    const rows = Array.from({ length: this.rows }, (_, index) => `\x1b[${index + 1};1H\x1b[K`).join("");
    this.output.write(`\x1b[r${rows}\x1b[${this.output.rows};1H`);
    this.rows = 0;
  }
}
