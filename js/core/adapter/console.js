// Executes the lines that a user types in the debug console: bench lines, key presses, expressions, and moves such as `back` for which the
// client has no button. In bench lines, labels can replace addresses.

import { ANSWER_FORMATS, isQuery } from "../bench/answer_table.js";
import { readRun, parseRefusal } from "../bench/answers.js";
import { readInputs } from "../bench/inputs.js";
import { replaceNames } from "../bench/name_substitution.js";
import { LAST_ADDRESS, parseNumber } from "../bench/numbers.js";
import { parseGoal } from "../debug/condition_search.js";
import { listNamedKeys } from "../testing/test_text.js";
import { AdapterError, fail, errorMessage } from "./dap_protocol.js";
import { compileSetLine } from "./place_assignment.js";
import { evaluateExpression } from "./expression_values.js";
import * as say from "../../words/adapter.js";
import { noKeyMessage } from "../../words/testing.js";

/**
 * @typedef {import("./debugged_machine.js").Machine} Machine
 * @typedef {import("./expression_values.js").ExpressionContext} ExpressionContext
 * @typedef {import("../bench/error_messages.js").ErrorMessages} ErrorMessages
 *
 * The result of a line. `text` is the text to show. `changes` is true if the line changed the machine. `move` starts the move that the
 * line requests, after the caller has shown the text; null if the line requests no move.
 * @typedef {{ text: string, changes: boolean, move: (() => void) | null }} LineResult
 *
 * A callback that is called between two pieces of a long input, with the number of processed characters. If it resolves to false, the input
 * is cancelled and no line takes effect.
 * @typedef {(done: number) => Promise<boolean>} ShouldContinue
 */

/** The words that can start a console line. */
export const CONSOLE_FIRST_WORDS = [
  "press", "release", "keys", "until", "change", "back", "forward", "set", "help", "display", ...ANSWER_FORMATS.keys(),
];
/** The maximum length of a console input in characters, and the maximum number of bench lines in it. */
const MAX_INPUT_LENGTH = 65536;
const MAX_BENCH_LINES = 1000;
/** Matches an input whose first line contains a comparison. */
const COMPARISON_LINE = /^[^\n]*[=<>]/;
const RUN_WORDS = new Set(["run", "step"]);
const BREAKPOINT_WORDS = new Set(["break", "unbreak", "watch", "unwatch"]);

/** @type {(text: string) => LineResult} returns the result of a line that only shows text */
const textResult = (text) => ({ text, changes: false, move: null });

export class Console {
  /**
   * @param {Machine} machine
   * @param {ExpressionContext} context
   * @param {ErrorMessages} errorMessages the messages for the error numbers of the bench
   * @param {{ handleBreakpointChange: () => void, handleRomChange: () => void }} callbacks called after a line has changed
   *   breakpoints or watches, and after a line has changed ROM
   */
  constructor(machine, context, errorMessages, callbacks) {
    this.callbacks = callbacks;
    this.machine = machine;
    this.context = context;
    this.errorMessages = errorMessages;
    this.namedKeys = listNamedKeys(context.face);
  }

  get session() {
    return this.context.session;
  }

  /**
   * Executes a typed input. Throws AdapterError if the input has an error.
   * @param {string} text the input: one line, or several bench lines
   * @param {ShouldContinue} [shouldContinue]
   * @param {import("./number_format.js").Base} [base] the number base of the output
   * @returns {Promise<LineResult>}
   */
  async serveLine(text, shouldContinue, base) {
    const line = text.trim();
    if (line.length > MAX_INPUT_LENGTH) fail(say.tooLongMessage(MAX_INPUT_LENGTH));
    const [word, ...operands] = line.split("\n")[0].split(/[ \t]+/);
    if (line === "" || line === "help" || line === "?") return textResult(say.HELP);
    const hasRowAndColumn = operands.length === 2 && operands.every((operand) => !Number.isNaN(parseNumber(operand)));
    if ((word === "press" || word === "release") && !hasRowAndColumn) return this.pressOrReleaseKeys(word, operands);
    if (word === "keys" && operands.length > 0) return this.typeKeys(operands);
    if (word === "until" || word === "change" || word === "back" || word === "forward") return this.createMove(word, operands);
    if (word === "set" && !line.includes("\n")) return this.runBenchLines(compileSetLine(line.slice("set".length), this.session));
    if (word === "set") return this.serveBenchLines(line, shouldContinue);
    // Bench lines never contain comparisons, so a line with a comparison is an expression.
    const isBenchLine = ANSWER_FORMATS.has(word) && !COMPARISON_LINE.test(line);
    return isBenchLine ? this.serveBenchLines(line, shouldContinue) : this.evaluateLine(line, base);
  }

  /**
   * Returns a result with the value of an expression; throws AdapterError if the expression has an error.
   * @param {string} line
   * @param {import("./number_format.js").Base} [base] the number base of the output
   */
  evaluateLine(line, base) {
    try {
      return textResult(evaluateExpression(line, this.context, base));
    } catch (thrown) {
      return fail(say.withHelpHint(errorMessage(thrown)));
    }
  }

  // --- keys ---

  /**
   * Returns the key with the given name; throws AdapterError if there is none.
   * @param {string} name
   */
  findKey(name) {
    const names = [...this.namedKeys.keys()].join(" ");
    const key = this.namedKeys.get(name);
    return key || fail(noKeyMessage(name, names));
  }

  /**
   * Presses or releases keys at once. While the machine runs, however, `press` queues a press and a release of each key. Throws
   * AdapterError if no name is given, or if a name is unknown.
   * @param {"press" | "release"} word
   * @param {string[]} names
   */
  async pressOrReleaseKeys(word, names) {
    if (names.length === 0) fail(say.keySyntax(word));
    const keys = names.map((name) => this.findKey(name));
    if (this.machine.isMoving && word === "press") return this.queueKeys(keys);
    const lines = keys.map((key) => `${key[word]}\n`).join("");
    return this.runBenchLines(lines);
  }

  /**
   * Adds a press and a release of each named key to the key queue. Throws AdapterError for an unknown name.
   * @param {string[]} words the key names; a word that is not a key name is split into letters
   */
  typeKeys(words) {
    const keys = words.flatMap((word) => (this.namedKeys.has(word) ? [word] : [...word])).map((name) => this.findKey(name));
    return this.queueKeys(keys);
  }

  /**
   * Adds a press and a release of each key to the key queue.
   * @param {import("../testing/test_text.js").Key[]} keys
   */
  queueKeys(keys) {
    const { queue } = this.session.debugger.session;
    for (const { key } of keys) {
      queue.press(key);
      queue.release(key);
    }
    return textResult(this.machine.isMoving ? "" : say.keysArePending(keys.length));
  }

  // --- moves ---

  /**
   * Returns a result whose `move` runs the machine, or goes back or forward in time. Throws AdapterError if the machine runs or the goal
   * has an error.
   * @param {string} word `until`, `change`, `back` or `forward`
   * @param {string[]} operands the words of the goal; empty for `forward`, and for `back` by one instruction
   * @returns {LineResult}
   */
  createMove(word, operands) {
    if (this.machine.isMoving) fail(say.MACHINE_IS_RUNNING);
    const target = operands.join(" ");
    /** @type {(action: () => void) => LineResult} */
    const moveResult = (action) => ({ text: "", changes: false, move: action });
    if (word === "forward") return moveResult(() => this.machine.goForward());
    if (word === "back" && target === "") return moveResult(() => this.machine.goBack({ kind: "instruction" }));
    if (word === "back") {
      const goal = this.readGoal(target);
      return moveResult(() => this.machine.goBack(goal));
    }
    if (target === "") fail(say.placeSyntax(word === "until" ? say.UNTIL_SYNTAX : say.CHANGE_SYNTAX));
    if (word === "change") return moveResult(() => this.machine.runToGoal({ kind: "change", place: target }));
    if (/[\s=<>!]/.test(target)) {
      const goal = this.readGoal(target);
      return moveResult(() => this.machine.runToGoal(goal));
    }
    const address = findAddress(target, this.context);
    return moveResult(() => this.machine.runToGoal({ kind: "here", address }));
  }

  /**
   * Parses the goal of a move: a place or a condition. Throws AdapterError if the text is neither.
   * @param {string} text
   */
  readGoal(text) {
    const { goal, error } = parseGoal(text, this.session.names);
    return goal || fail(error);
  }

  // --- lines of the bench ---

  /**
   * Executes typed bench lines, after the names in them are replaced by values. Throws AdapterError if a name is unknown, if there are too
   * many lines, or if some lines are commands and the bench rejects all lines. Also throws AdapterError if a line requests a run while the
   * machine runs.
   * @param {string} line one or more lines, separated by line feeds
   * @param {ShouldContinue} [shouldContinue]
   * @returns {Promise<LineResult>}
   */
  async serveBenchLines(line, shouldContinue) {
    const { lines, message } = replaceNames(`${line}\n`, this.session.map);
    if (message) fail(message);
    const kinds = readInputs(lines).map(({ kind }) => kind);
    if (kinds.length > MAX_BENCH_LINES) fail(say.tooManyLinesMessage(MAX_BENCH_LINES));
    if (this.machine.isMoving && kinds.some((kind) => RUN_WORDS.has(kind))) fail(say.MACHINE_IS_RUNNING);
    if (kinds.every(isQuery)) return textResult(this.session.debugger.session.ask(lines).join("\n"));
    const result = await this.runBenchLines(lines, shouldContinue);
    if (kinds.some((kind) => BREAKPOINT_WORDS.has(kind))) this.callbacks.handleBreakpointChange();
    return result;
  }

  /**
   * Executes bench lines that change the session. Throws AdapterError if the bench rejects all of them.
   * @param {string} lines bench lines without names, each with a line feed
   * @param {ShouldContinue} [shouldContinue]
   * @returns {Promise<LineResult>}
   */
  async runBenchLines(lines, shouldContinue) {
    const { entries, hasChangedRom, tally, message: stopMessage } = await this.session.serve(lines, shouldContinue);
    if (hasChangedRom) this.callbacks.handleRomChange();
    const answers = entries.flatMap((entry) => entry.answers);
    const texts = answers.map((answer) => {
      const refusal = parseRefusal(answer);
      return refusal ? `${answer}: ${this.errorMessages.refusalMeaning(refusal.number)}` : answer;
    });
    const isRejected = answers.every((answer) => parseRefusal(answer));
    if (isRejected && answers.length > 0) throw new AdapterError(texts.join("\n"));
    this.machine.reportTally(tally, tally.noteCount);
    if (answers.some((answer) => readRun(answer))) this.machine.reportFrontPanelText();
    return { text: [...texts, ...(stopMessage ? [stopMessage] : [])].join("\n"), changes: true, move: null };
  }
}

/**
 * Returns the address of a label or number. Throws AdapterError if the text is neither, or if the address is outside ROM.
 * @param {string} text a label with or without `@`, a number, or three hexadecimal digits
 * @param {ExpressionContext} context
 * @returns {number}
 */
export function findAddress(text, { session }) {
  const word = text.trim().replace(/^@/, "");
  const number = /^[0-9A-Fa-f]{3}$/.test(word) && Number.isNaN(parseNumber(word)) ? parseInt(word, 16) : parseNumber(word);
  const address = Number.isNaN(number) ? session.map.findValue(word) : number;
  if (address === undefined) return fail(say.noAddressMessage(word));
  return address <= LAST_ADDRESS ? address : fail(say.ADDRESS_RANGE);
}
