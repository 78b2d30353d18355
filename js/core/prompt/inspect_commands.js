// The prompt commands that show the state of the session and do not change it.

import { LAST_ADDRESS } from "../bench/numbers.js";
import { parsePlace } from "../conditions/places.js";
import { findCommand, commandHelp } from "./prompt_commands.js";
import { formatExpressionValue } from "./formats.js";
import * as stateText from "./state_text.js";
import { parseCountArgument, findInstruction, parseAddress, rejectCommand } from "./argument_parsers.js";
import { DISASSEMBLED_FROM_ROM } from "../../words/adapter.js";
import * as say from "../../words/prompt.js";
import { pausedAt } from "../../words/stops.js";

/**
 * @typedef {import("./debugger_prompt.js").CommandHandler} CommandHandler
 * @typedef {import("./debugger_prompt.js").Prompt} Prompt
 */

/** The maximum number of instructions or RAM nibbles that the command `x` prints. */
const MAX_EXAMINED_COUNT = 4096;
/** The number of source lines that `list` prints. */
const LIST_LENGTH = 10;
/** The words that can follow `info`. */
export const INFO_WORDS = [
  "registers", "ram", "ports", "keys", "breakpoints", "watches", "display", "names", "source", "session", "line", "symbol", "frame",
  "stack", "program", "locals",
];
/** The names that gdb accepts after `info` and that INFO_WORDS lacks, each with the word in INFO_WORDS that has the same meaning. */
const GDB_INFO_NAMES = new Map([
  ["r", "registers"], ["s", "stack"], ["f", "frame"], ["args", "locals"], ["all-registers", "registers"],
]);

export class InspectCommands {
  /** @param {Prompt} prompt */
  constructor(prompt) {
    this.prompt = prompt;
    /** @type {string[]} the expressions that are printed at each stop */
    this.displays = [];
    /** The number of the last source line that `list` has printed since the last stop, 0 for none. */
    this.lastListedLine = 0;
  }

  /**
   * The handlers by command name.
   * @returns {Record<string, CommandHandler>}
   */
  get handlers() {
    const { callbacks, machine, session } = this.prompt;
    return {
      lamps: () => callbacks.print(machine.frontPanelText.currentText() || say.NO_LAMPS),
      print: (argumentText) => callbacks.print(this.evaluate(argumentText || rejectCommand(say.PRINT_SYNTAX))),
      display: (argumentText) => this.addDisplay(argumentText),
      undisplay: (argumentText) => this.removeDisplays(argumentText),
      x: (argumentText) => this.printMemory(argumentText),
      list: (argumentText) => this.listSource(argumentText),
      info: (argumentText) => callbacks.print(this.formatInfo(argumentText)),
      view: (argumentText) => this.switchView(argumentText),
      backtrace: () => callbacks.print(stateText.formatFrames(session)),
      frame: () => callbacks.print(this.frameText),
      help: (argumentText) => {
        if (argumentText !== "" && !findCommand(argumentText).command) rejectCommand(findCommand(argumentText).message);
        callbacks.print(commandHelp(argumentText));
      },
      quit: () => {
        this.prompt.isEnded = true;
      },
    };
  }

  /**
   * Shows or hides the view (view.js), the part of the terminal that always shows the source and the registers.
   * @param {string} argumentText the argument of `view` or of gdb's `layout` and `tui`
   */
  switchView(argumentText) {
    const { view } = this.prompt.callbacks;
    if (!/^(|on|off|enable|disable|src|regs|asm|split)$/.test(argumentText)) rejectCommand(say.VIEW_SYNTAX);
    if (!view) {
      rejectCommand(say.VIEW_NEEDS_TERMINAL);
      return;
    }
    const message = argumentText === "" ? view.toggle() : view.setVisible(!/^(off|disable)$/.test(argumentText));
    if (message) rejectCommand(message);
  }

  /**
   * Returns the current value of an expression as text.
   * @param {string} expression the expression, with an optional format before it: `/x r4`
   */
  evaluate(expression) {
    return formatExpressionValue(expression, this.prompt.expressionContext);
  }

  /**
   * Returns the current value of an expression as text, or the error message.
   * @param {string} expression
   */
  evaluateOrExplain(expression) {
    try {
      return this.evaluate(expression);
    } catch (error) {
      return error instanceof Error ? error.message : String(error);
    }
  }

  /**
   * Prints the expressions that `display` has added, with their values.
   * @param {number} [startIndex] the index of the first expression to print
   */
  showDisplays(startIndex = 0) {
    this.displays.slice(startIndex).forEach((expression, index) => {
      this.prompt.callbacks.print(`${startIndex + index + 1}: ${expression} = ${this.evaluateOrExplain(expression)}`);
    });
  }

  /**
   * Adds an expression that is printed at each stop. Without an expression, prints the expressions that were added before.
   * @param {string} argumentText the expression, or ""
   */
  addDisplay(argumentText) {
    if (argumentText === "") return this.showDisplays();
    this.evaluate(argumentText);
    this.displays.push(argumentText);
    return this.showDisplays(this.displays.length - 1);
  }

  /**
   * Removes expressions that are printed at each stop.
   * @param {string} argumentText the numbers of the expressions, or "" to remove all
   */
  removeDisplays(argumentText) {
    const ids = argumentText.split(/\s+/).filter(Boolean).map(Number);
    const hasInvalidNumber = ids.some((id) => !(id >= 1 && id <= this.displays.length));
    if (hasInvalidNumber) rejectCommand(say.NO_SUCH_DISPLAY);
    this.displays = argumentText === "" ? [] : this.displays.filter((_, index) => !ids.includes(index + 1));
  }

  /**
   * Prints RAM nibbles or disassembled instructions.
   * @param {string} argumentText an optional count such as `/8`, and the first nibble or address
   */
  printMemory(argumentText) {
    const { callbacks, session } = this.prompt;
    const [, count = "", place = ""] = /^(?:\/(\d*)[a-z]?)?\s*(.*)$/.exec(argumentText) || [];
    const shownCount = parseCountArgument(count, MAX_EXAMINED_COUNT);
    if (/^ram[. ]/i.test(place)) {
      const { name } = parsePlace(place) || { name: place };
      return callbacks.print(stateText.formatNibbles(session, name, shownCount));
    }
    const address = place === "" ? session.address : parseAddress(place, session);
    if (address === undefined || address > LAST_ADDRESS) return rejectCommand(say.noPlaceOfMemoryMessage(place));
    return callbacks.print(stateText.formatDisassembly(session, address, shownCount));
  }

  /**
   * Prints source lines: the lines around a location, or the lines after the last printed line.
   * @param {string} argumentText the location, or "" to print the lines after the last printed line; if `list` has printed nothing since
   *   the last stop, "" prints the lines around the next instruction
   */
  listSource(argumentText) {
    const { callbacks, session } = this.prompt;
    const count = stateText.countSourceLines(session);
    let firstLine = this.lastListedLine + 1;
    if (argumentText !== "" || this.lastListedLine === 0) {
      const line = /^\d+$/.test(argumentText) ? Number(argumentText) : findInstruction(argumentText, session).line;
      if (line === 0) rejectCommand(say.NO_LINE_THERE);
      firstLine = Math.max(1, line - LIST_LENGTH / 2);
    }
    if (firstLine > count) rejectCommand(say.sourceLineCountMessage(count));
    callbacks.print(stateText.formatSourceLines(session, firstLine, firstLine + LIST_LENGTH - 1));
    this.lastListedLine = Math.min(count, firstLine + LIST_LENGTH - 1);
  }

  /** The text of `frame`: the innermost frame and the next instruction. */
  get frameText() {
    const { session } = this.prompt;
    return `${stateText.formatFrames(session).split("\n")[0]}\n${stateText.formatNextInstruction(session)}`;
  }

  /**
   * The functions that return the text of `info`, by the word after `info`.
   * @returns {Record<string, (argumentText: string) => string>}
   */
  get infoFormatters() {
    const { session, keys, launchResult, breakpointCommands, lastStop } = this.prompt;
    return {
      registers: () => stateText.formatRegisters(session),
      ram: () => stateText.formatRam(session),
      ports: () => stateText.formatPorts(session),
      keys: () => keys.formatInfo(),
      breakpoints: () => breakpointCommands.breakpointsText,
      watches: () => breakpointCommands.watchesText,
      display: () => this.displays.map((expression, index) => `${index + 1}: ${expression}`).join("\n") || say.NOTHING_DISPLAYED,
      names: () => stateText.formatNames(session),
      source: () => say.linesOf(launchResult.program || DISASSEMBLED_FROM_ROM, stateText.countSourceLines(session)),
      session: () => (launchResult.writer ? say.SESSION_FILE : say.IN_MEMORY),
      line: (place) => stateText.formatLineInfo(session, findInstruction(place, session)),
      symbol: (place) => {
        const address = parseAddress(place || rejectCommand(say.SYMBOL_SYNTAX), session);
        return address === undefined ? rejectCommand(say.noPlaceOfMemoryMessage(place)) : stateText.formatAddress(session, address);
      },
      frame: () => this.frameText,
      stack: () => stateText.formatFrames(session),
      program: () => lastStop.message || pausedAt(session.counterText),
      locals: () => say.NO_LOCALS,
    };
  }

  /**
   * Returns the text of an `info` command; fails if the word is unknown or not unique.
   * @param {string} argumentText a word of INFO_WORDS, a unique prefix of one, or its name in gdb; `line` and `symbol` take an argument
   */
  formatInfo(argumentText) {
    const [, word = "", argument = ""] = /^(\S*)\s*(.*)$/.exec(argumentText) || [];
    const matchingKinds = INFO_WORDS.filter((kind) => word !== "" && kind.startsWith(word));
    const [matchingKind] = matchingKinds.length === 1 ? matchingKinds : [""];
    const kind = GDB_INFO_NAMES.get(word) || matchingKind || rejectCommand(say.infoSyntax(INFO_WORDS.join(", ")));
    if (argument !== "" && !/^(line|symbol)$/.test(kind)) rejectCommand(say.infoTakesNoArgument(kind));
    return this.infoFormatters[kind](argument);
  }
}
