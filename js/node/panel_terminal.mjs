// The terminal of `mcs4 panel`. Draws on the whole screen and reads single keys. Restores the terminal, however the panel ends.
import { writeSync } from "node:fs";
import { splitKeys } from "../core/panel/terminal_keys.js";
import { MIN_SIZE, fitsPanel } from "../core/panel/screen.js";
import * as say from "../words/panel.js";
import { CommandError } from "./output.mjs";
import { isDumb } from "./terminal.mjs";

/**
 * @typedef {import("../core/panel/screen.js").Piece} Piece
 * @typedef {import("../core/panel/screen.js").ScreenRow} ScreenRow
 * @typedef {import("../core/panel/terminal_keys.js").TypedKey} TypedKey
 */

const STDOUT = 1;
/** The escape sequences that switch to the alternate screen without cursor and line wrapping (BEGIN_SEQUENCE), and back (END_SEQUENCE). */
const BEGIN_SEQUENCE = "\x1b[?1049h\x1b[?25l\x1b[?7l\x1b[2J";
const END_SEQUENCE = "\x1b[0m\x1b[?7h\x1b[?25h\x1b[?1049l";
const CLEAR_SEQUENCE = "\x1b[2J";
const PLAIN_SEQUENCE = "\x1b[0m";
const INVERSE_SEQUENCE = "\x1b[7m";
const MIN_SIZE_TEXT = say.columnsByRows(MIN_SIZE.columns, MIN_SIZE.rows);
/** The minimum colour depth of a terminal, in bits, for 256 colours and for 8 colours. */
const MIN_BITS = { colours256: 8, colours8: 4 };
/** @type {Record<string, number[]>} the codes of each lamp colour on a terminal with 256 colours, for three levels of brightness: dim, half, full */
const COLOURS_OF_256 = {
  red: [88, 160, 196], amber: [94, 172, 214], yellow: [100, 184, 226], green: [22, 34, 46], blue: [19, 27, 33], white: [240, 248, 231],
};
/** @type {Record<string, number>} the code of each lamp colour on a terminal with 8 colours; amber is yellow without its brightest level */
const COLOURS_OF_8 = { red: 31, amber: 33, yellow: 33, green: 32, blue: 34, white: 37 };

/** @type {(colour: string, level: number) => string} */
const paint256 = (colour, level) => `\x1b[${level === 3 ? "1;" : ""}38;5;${COLOURS_OF_256[colour][level - 1]}m`;
/** @type {(colour: string, level: number) => string} */
const paint8 = (colour, level) => `\x1b[${["2;", "", colour === "amber" ? "" : "1;"][level - 1]}${COLOURS_OF_8[colour]}m`;

/**
 * Returns the function that makes the escape sequence for a lamp's colour and level; null if the terminal has no colours or NO_COLOR is
 * set.
 * @param {import("node:tty").WriteStream} output
 * @param {Record<string, string | undefined>} env
 */
function choosePainter(output, env) {
  if (env.NO_COLOR) return null;
  const { NO_COLOR: _, FORCE_COLOR: __, ...otherVariables } = env;
  const depth = output.getColorDepth(otherVariables);
  if (depth >= MIN_BITS.colours256) return paint256;
  return depth >= MIN_BITS.colours8 ? paint8 : null;
}

export class PanelTerminal {
  constructor() {
    const { stdin, stdout, env } = process;
    if (!stdin.isTTY || !stdout.isTTY) throw new CommandError(say.NO_TERMINAL);
    if (isDumb(env)) throw new CommandError(say.unsuitableTerminalMessage(env.TERM || ""));
    this.input = stdin;
    this.output = stdout;
    if (!fitsPanel(this.size)) throw new CommandError(say.tooSmallMessage(MIN_SIZE_TEXT, this.size.columns, this.size.rows));
    this.paint = choosePainter(stdout, env);
    this.isOn = false;
    /** True if the terminal is no longer available, or if the panel must end. */
    this.isGone = false;
    /** True if the terminal could not be restored. */
    this.isLost = false;
    /** @type {TypedKey[]} the typed keys that the panel has not handled yet */
    this.keys = [];
    /** @type {string[]} the rows that are currently on the screen */
    this.drawnRows = [];
    /** Ends the current call of `wait`. */
    this.wake = () => {};
    this.onResize = () => {};
  }

  get size() {
    const { rows = 0, columns = 0 } = this.output;
    return { rows, columns };
  }

  /**
   * Switches to the whole screen and starts reading keys.
   * @param {() => void} onResize called when the terminal's size changes
   */
  begin(onResize) {
    const markTerminalGone = () => {
      this.isGone = true;
      this.wake();
    };
    this.isOn = true;
    process.on("exit", () => this.end());
    this.input.setEncoding("utf8");
    this.input.on("data", (text) => {
      this.keys.push(...splitKeys(String(text)));
      this.wake();
    });
    for (const event of ["end", "error", "close"]) this.input.on(event, markTerminalGone);
    this.output.on("error", markTerminalGone);
    this.output.on("resize", () => {
      this.drawnRows = [];
      onResize();
      this.wake();
    });
    this.input.setRawMode(true);
    this.output.write(BEGIN_SEQUENCE);
  }

  /** Restores the terminal immediately and makes the panel end. */
  leave() {
    this.isGone = true;
    this.end();
    this.wake();
  }

  /** Restores the terminal. */
  end() {
    if (!this.isOn) return;
    this.isOn = false;
    try {
      this.input.setRawMode(false);
      writeSync(STDOUT, END_SEQUENCE);
    } catch {
      this.isLost = true;
    }
    this.input.destroy();
  }

  /** If the terminal could not be restored, ends the process with SIGHUP, as if the terminal had hung up. Node would crash at a normal exit. */
  hangUp() {
    if (!this.isLost) return;
    process.removeAllListeners("SIGHUP");
    process.kill(process.pid, "SIGHUP");
  }

  /**
   * Waits until a key is typed, the size of the terminal changes, the terminal is gone, or the time has elapsed.
   * @param {number} milliseconds the maximum time to wait
   */
  async wait(milliseconds) {
    if (this.keys.length > 0 || this.isGone) return;
    await new Promise((resolve) => {
      const timer = setTimeout(resolve, Math.max(0, milliseconds));
      this.wake = () => {
        clearTimeout(timer);
        resolve(undefined);
      };
    });
    this.wake = () => {};
  }

  /**
   * Writes the rows that have changed, in a single write. Does nothing after the terminal has been restored.
   * @param {ScreenRow[]} rows
   */
  draw(rows) {
    if (!this.isOn) return;
    const clearSequence = this.drawnRows.length === rows.length ? "" : CLEAR_SEQUENCE;
    const texts = rows.map((row) => this.formatRow(row));
    const isUnchanged = (/** @type {number} */ index) => clearSequence === "" && texts[index] === this.drawnRows[index];
    const changedText = texts.map((text, index) => (isUnchanged(index) ? "" : `\x1b[${index + 1};1H${text}`)).join("");
    this.drawnRows = texts;
    if (changedText !== "") this.output.write(clearSequence + changedText);
  }

  /** Shows that the terminal is too small. Does nothing after the terminal has been restored. */
  drawTooSmall() {
    if (!this.isOn) return;
    const { columns, rows } = this.size;
    this.drawnRows = [];
    this.output.write(`\x1b[H${CLEAR_SEQUENCE}${say.tooSmallNote(`${MIN_SIZE.columns} by ${MIN_SIZE.rows}`, columns, rows)}`);
  }

  /**
   * Returns the characters that draw a row.
   * @param {ScreenRow} row
   */
  formatRow({ pieces, isInverse }) {
    const text = pieces.map((piece) => this.formatPiece(piece)).join("");
    return isInverse ? `${INVERSE_SEQUENCE}${text}${PLAIN_SEQUENCE}` : text;
  }

  /**
   * Returns the characters that draw a piece of a row.
   * @param {Piece} piece
   */
  formatPiece({ text, colour, level }) {
    return this.paint && colour !== "" ? `${this.paint(colour, level)}${text}${PLAIN_SEQUENCE}` : text;
  }
}
