// A prompt at a terminal. Node's readline edits, completes and recalls lines. The prompt executes lines in sequence; input that arrives in
// the meantime waits. On a terminal that cannot move its cursor, the terminal itself edits the lines.
//
//     const terminal = new TerminalPrompt(prompt, { output: process.stderr });
//     await terminal.run();      // resolves to the status of a signal, or to 0 at `prompt.isEnded` and at the end of input
import { constants } from "node:os";
import { createInterface } from "node:readline";
import { PassThrough } from "node:stream";
import { escapeControls } from "../core/text/control_escapes.js";
import { UNWRAPPED_PREFIX, wrapMessage } from "../core/text/line_wrapping.js";
import { MAX_LINES, PromptHistory } from "./prompt_history.mjs";
import { isDumb, makePainter } from "./terminal.mjs";

/**
 * The receiver of typed lines. `label` is the text of the prompt. `isEnded` is true after a line that ends the prompt. `enterLine` executes a
 * line. `complete` resolves to the completions of a line, and to the part of the line that they replace. `interrupt` stops the line in progress, and
 * returns false if it cannot be stopped. `discardUnfinished` discards incomplete input, and returns a message about it.
 * @typedef {{ label: string, isEnded: boolean, enterLine: (line: string) => Promise<boolean>,
 *   complete: (line: string) => Promise<[string[], string]>, interrupt: () => boolean, discardUnfinished: () => string }} LinePrompt
 */

/**
 * The streams and callbacks of a prompt at a terminal.
 * @typedef {object} TerminalCallbacks
 * @property {import("node:tty").WriteStream} output the terminal that shows the prompt and the messages
 * @property {() => void} [onLineExecuted] called after the execution of a line
 * @property {() => void} [onLeave] called when the prompt releases the terminal: at Ctrl-Z, and when the prompt ends
 * @property {() => void} [onReturn] called when the prompt uses the terminal again after Ctrl-Z
 */

/** The escape sequences around pasted text, and the sequences that switch them on and off (bracketed paste). */
const PASTE_SEQUENCES = { begin: "\x1b[200~", end: "\x1b[201~", on: "\x1b[?2004h", off: "\x1b[?2004l" };
/** Matches an incomplete paste mark at the end of the input so far. */
const PARTIAL_MARK = /\x1b\[(2(0[01]?)?)?$/;
const CTRL_C = "\x03";
const BOLD = 1;
const RED = 31;
/** The assumed width of a terminal that does not report its width, in columns. */
const DEFAULT_WIDTH = 80;
/** The minimum width to which messages are wrapped, in columns. */
const MIN_WIDTH = 20;

/** The input stream of readline. It receives the input of the terminal piece by piece. */
class KeyStream extends PassThrough {
  isTTY = true;

  /** @param {boolean} isRaw */
  setRawMode(isRaw) {
    process.stdin.setRawMode(isRaw);
  }
}

/**
 * Replaces control characters in pasted text with U+FFFD, so that they cannot move the cursor. The bench rejects a line with U+FFFD.
 * @param {string} text
 */
function replaceControlCharacters(text) {
  // eslint-disable-next-line no-control-regex
  return text.replace(/[\x00-\x08\x0b-\x1f\x7f-\x9f]/g, "\ufffd");
}

export class TerminalPrompt {
  /**
   * @param {LinePrompt} prompt
   * @param {TerminalCallbacks} callbacks
   */
  constructor(prompt, { output, onLineExecuted = () => {}, onLeave = () => {}, onReturn = () => {} }) {
    this.prompt = prompt;
    this.output = output;
    this.callbacks = { onLineExecuted, onLeave, onReturn };
    this.isDumb = isDumb(process.env);
    this.paint = makePainter(process.env);
    this.history = new PromptHistory(process.env);
    /** @type {string[]} the pieces of input that have not been handled yet */
    this.waitingInput = [];
    /** True during the execution or completion of a line, and before the first prompt. */
    this.isBusy = true;
    this.isPasting = false;
    this.hasInputEnded = false;
    this.hasEnded = false;
    /** True after the prompt has released the terminal. */
    this.hasReleasedTerminal = false;
    /** The exit status for the signal that ended the prompt; 0 if no signal ended it. */
    this.status = 0;
    this.keys = new KeyStream();
    this.terminal = createInterface({
      input: this.keys, output, terminal: !this.isDumb, history: this.history.lines, historySize: MAX_LINES, crlfDelay: Infinity,
      completer: (line, callback) => this.complete(line, callback),
    });
    /** @type {(result?: Promise<void>) => void} */
    this.resolveEnd = () => {};
    /** @type {Promise<void>} */
    this.endPromise = new Promise((resolve) => {
      this.resolveEnd = resolve;
    });
  }

  // --- output ---

  /** The width to which messages are wrapped, in columns. */
  get width() {
    return Math.max(MIN_WIDTH, (this.output.columns || DEFAULT_WIDTH) - 1);
  }

  /**
   * Prints a message.
   * @param {string} message
   */
  print(message) {
    this.output.write(`${wrapMessage(escapeControls(message), this.width)}\n`);
  }

  /**
   * Prints an error message in red. Quoted lines are not coloured.
   * @param {string} message
   */
  printError(message) {
    const lines = wrapMessage(escapeControls(message), this.width).split("\n");
    const paint = this.paint(RED);
    this.output.write(`${lines.map((line) => (line.startsWith(UNWRAPPED_PREFIX) ? line : paint(line))).join("\n")}\n`);
  }

  // --- running the prompt ---

  /** Runs the prompt. Resolves to the exit status for a signal that ended it, or to 0. */
  async run() {
    process.stdin.setEncoding("utf8");
    process.stdin.on("data", (text) => this.handleInput(text));
    process.stdin.on("end", () => {
      this.hasInputEnded = true;
      this.handleWaitingInput();
    });
    process.stdin.on("error", () => this.end());
    this.addHandlers();
    if (!this.isDumb) this.output.write(PASTE_SEQUENCES.on);
    process.on("exit", () => this.releaseTerminal());
    this.showNextPrompt();
    await this.endPromise;
    return this.status;
  }

  /** Registers the handlers of lines and signals. */
  addHandlers() {
    const { terminal } = this;
    terminal.on("line", (line) => this.serveLine(line));
    terminal.on("close", () => this.end());
    terminal.on("SIGINT", () => this.dropLine());
    terminal.on("SIGTSTP", () => this.suspend());
    if (this.isDumb) process.on("SIGINT", () => (this.isBusy ? this.prompt.interrupt() : this.dropLine()));
    // On a terminal with cursor movement, readline reads Ctrl-C as a key. A SIGINT then comes from another process.
    for (const signal of ["SIGTERM", "SIGHUP", ...(this.isDumb ? [] : ["SIGINT"])]) {
      process.on(signal, () => {
        this.status = 128 + constants.signals[signal];
        this.end();
      });
    }
  }

  /** Shows the prompt and handles waiting input. */
  showNextPrompt() {
    this.isBusy = false;
    this.show();
    this.handleWaitingInput();
  }

  /** Shows the prompt and the line that the user is typing. */
  show() {
    this.terminal.setPrompt(this.paint(BOLD)(this.prompt.label));
    this.terminal.prompt(true);
  }

  /**
   * Executes a line.
   * @param {string} line
   */
  async serveLine(line) {
    this.isBusy = true;
    this.history.add(line);
    try {
      await this.prompt.enterLine(line);
    } catch (error) {
      this.endWithError(error);
      return;
    }
    this.callbacks.onLineExecuted();
    if (this.prompt.isEnded) this.end();
    else if (!this.hasEnded) this.showNextPrompt();
  }

  /**
   * Ends the prompt after an unexpected error. The promise of `run` then rejects with this error.
   * @param {unknown} error
   */
  endWithError(error) {
    const resolve = this.resolveEnd;
    this.resolveEnd = () => resolve(Promise.reject(error));
    this.end();
  }

  /** Ends the prompt and restores the terminal. */
  end() {
    if (this.hasEnded) return;
    this.hasEnded = true;
    if (!this.prompt.isEnded) this.output.write("\n");
    this.terminal.close();
    this.releaseTerminal();
    process.stdin.destroy();
    this.resolveEnd();
  }

  /** Calls `onLeave` and switches off bracketed paste. (Readline restores the terminal's mode when it closes, and Node when it ends.) */
  releaseTerminal() {
    if (this.hasReleasedTerminal) return;
    this.hasReleasedTerminal = true;
    this.callbacks.onLeave();
    if (!this.isDumb) this.output.write(PASTE_SEQUENCES.off);
  }

  // --- input ---

  /**
   * Handles input from the terminal. If Ctrl-C arrives during the execution of a line, stops the line and discards the input before Ctrl-C.
   * @param {string} text
   */
  handleInput(text) {
    const stopIndex = this.isBusy && !this.isDumb && !this.isPasting ? text.lastIndexOf(CTRL_C) : -1;
    if (stopIndex >= 0) {
      this.waitingInput = [text.slice(stopIndex + 1)];
      this.prompt.interrupt();
    } else {
      this.waitingInput.push(text);
      this.handleWaitingInput();
    }
  }

  /** Handles waiting input, up to the first line to execute. */
  handleWaitingInput() {
    while (!this.isBusy && !this.hasEnded && this.waitingInput.length > 0) {
      const unhandledText = this.handlePiece(this.waitingInput[0]);
      if (unhandledText !== "") this.waitingInput[0] = unhandledText;
      else this.waitingInput.shift();
      // If the input ends within a paste mark, wait for the rest of the mark.
      if (unhandledText !== "" && PARTIAL_MARK.exec(unhandledText)?.index === 0) {
        if (this.waitingInput.length < 2) return;
        this.waitingInput.splice(0, 2, unhandledText + this.waitingInput[1]);
      }
    }
    if (this.hasInputEnded && !this.isBusy && !this.hasEnded) this.end();
  }

  /**
   * Handles one piece of input: a paste mark, or characters up to the end of a line. Returns the remaining input.
   * @param {string} text
   */
  handlePiece(text) {
    const pasteMark = this.isPasting ? PASTE_SEQUENCES.end : PASTE_SEQUENCES.begin;
    if (text.startsWith(pasteMark)) {
      this.isPasting = !this.isPasting;
      return text.slice(pasteMark.length);
    }
    const markIndex = text.indexOf(pasteMark);
    const textBeforeMark = markIndex < 0 ? text.replace(PARTIAL_MARK, "") : text.slice(0, markIndex);
    const [piece = ""] = /^[^\r\n]*(\r\n|\r|\n)?/.exec(textBeforeMark) || [];
    if (this.isPasting) this.paste(piece);
    else if (piece !== "") this.keys.emit("data", piece);
    return text.slice(piece.length);
  }

  /**
   * Inserts a pasted piece into the line. A line break at its end ends the line, as Return does; no other character acts as a key.
   * @param {string} piece
   */
  paste(piece) {
    const text = piece.replace(/[\r\n]+$/, "");
    if (text !== "") this.terminal.write(replaceControlCharacters(text));
    if (text.length < piece.length) this.terminal.write(null, { name: "return" });
  }

  /**
   * Completes a line.
   * @param {string} line
   * @param {(error: null, completions: [string[], string]) => void} callback
   */
  async complete(line, callback) {
    this.isBusy = true;
    /** @type {[string[], string]} */
    let completions = [[], line];
    try {
      completions = await this.prompt.complete(line);
    } finally {
      callback(null, completions);
      this.isBusy = false;
      this.handleWaitingInput();
    }
  }

  // --- control keys ---

  /** Handles Ctrl-C: discards the line. If the line is empty, discards the incomplete input of earlier lines. */
  dropLine() {
    const { terminal, output } = this;
    const isEmpty = this.isDumb || terminal.line === "";
    if (this.isDumb) output.write("\n");
    else {
      terminal.write(null, { ctrl: true, name: "e" });
      output.write("^C");
      terminal.clearLine();
    }
    const message = isEmpty ? this.prompt.discardUnfinished() : "";
    if (message !== "") this.print(message);
    this.show();
  }

  /** Handles Ctrl-Z: leaves the terminal to the shell until the process continues. */
  suspend() {
    this.callbacks.onLeave();
    this.output.write(PASTE_SEQUENCES.off);
    process.stdin.setRawMode(false);
    process.once("SIGCONT", () => {
      process.stdin.setRawMode(true);
      this.output.write(PASTE_SEQUENCES.on);
      this.callbacks.onReturn();
      this.terminal.prompt(true);
    });
    process.kill(process.pid, "SIGTSTP");
  }
}
