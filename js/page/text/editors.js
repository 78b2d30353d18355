// The editors of the board's text and of the source. The editors check the texts while the user types, and send them to the bench.

import { readBoard, parseRefusal } from "../../core/bench/answers.js";
import { formatQuantity } from "../../core/bench/numbers.js";
import { TextErrorFinder, findFrontPanelErrors, toTextRefusal } from "../../core/text/text_error_finder.js";
import { createProgramTexts, describeAssembledProgram } from "../../core/text/asm_texts.js";
import { makeAssemblyColours } from "./assembly_colours.js";
import { colourBoardLine } from "./board_colours.js";
import { completeBoard } from "../../core/text/board_completion.js";
import { completeProgram } from "../../core/text/completion.js";
import { block, button, onClick } from "../ui/dom.js";
import { TextEditorView } from "./text_editor_view.js";
import { moreErrorsMessage } from "../../core/board/face.js";
import { FOLD_PATTERNS } from "../../core/text/folding.js";
import { LiveErrors } from "./live_errors.js";
import { readInstructions } from "../../core/help/manual.js";
import { isProbablyNotProgram } from "../../core/text/program_errors.js";
import { readBoardTables, helpForBoard, helpForProgram } from "../../core/text/text_help.js";
import { TOUR_BOARD } from "../../words/help.js";
import * as say from "../../words/text.js";

/**
 * @typedef {import("../../core/engine/file_requests.js").FileRequests} FileRequests
 * @typedef {import("../../core/engine/program_requests.js").ProgramRequests} ProgramRequests
 * @typedef {import("../../core/engine/session_requests.js").SessionRequests} SessionRequests
 * @typedef {import("../../core/bench/bench_client.js").Caller<FileRequests & ProgramRequests & SessionRequests>} Bench
 * @typedef {import("../../core/help/manual.js").ManualSection} ManualSection
 * @typedef {import("../../core/text/program_errors.js").TextErrors} TextErrors
 * @typedef {import("../../core/debug/breakpoints.js").Edit} Edit
 * @typedef {import("../../core/text/sendable_text.js").TextError} TextError
 * @typedef {import("../../core/bench/error_messages.js").ErrorMessages} ErrorMessages
 * @typedef {import("../machine/breakpoint_form.js").BreakpointField} BreakpointField
 */

/**
 * The callbacks of the two editors. Lines count from 1.
 * @typedef {object} EditorsCalls
 * @property {(edits: Edit[]) => void} handleEdits Handles an edit. `edits` has the edits of the source; it is empty after an edit of the
 *   board's text.
 * @property {(wasReset: boolean) => Promise<void>} handleAssembly Handles a program that was loaded into ROM; `wasReset` is true if the
 *   processor was also reset. Resolves when the addresses of all breakpoints are up to date.
 * @property {(lines: string) => Promise<string | null>} serveLines Sends lines to the bench. Resolves to the first answer, or to null after
 *   a failure. A failure has already been reported.
 * @property {() => Promise<void>} pauseTime Pauses time. Resolves when time is paused.
 * @property {() => void} resumeTime Resumes time.
 * @property {() => string} counter Returns the program counter that the page shows, as three hexadecimal digits.
 * @property {(line: number) => void} toggleBreakpoint Sets or removes the breakpoint at a source line.
 * @property {(line: number, fieldName: BreakpointField) => void} editBreakpoint Opens a field of the breakpoint at a line.
 * @property {(line: number, point: { left: number, bottom: number }) => void} openMarginMenu Opens the margin menu of a line at a point of
 *   the window, in pixels.
 * @property {(name: string) => string} describeName Returns the description of a name in the program, or "" if the name is unknown.
 * @property {(text: string, offset: number) => import("../../core/debug/word_values.js").Piece[]} valuesAt Returns the current values of
 *   the word at an offset in a line. Returns an empty list while time is running.
 * @property {import("./meaning_view.js").MakeEditable} makeEditable Makes a cell that shows a value editable.
 * @property {(name: "program" | "board", count: number) => void} showErrorCount Shows the number of errors in a text on its tab.
 * @property {(text: string, message: string) => void} replaceBoard Replaces the board's text and shows a message that offers undo.
 * @property {(error: unknown) => void} reportFailure Reports an error that a call threw.
 */

/** The maximum number of errors in the list below a text. */
const MAX_LISTED_ERRORS = 20;

export class Editors {
  /**
   * @param {Bench} bench
   * @param {ErrorMessages} errorMessages
   * @param {ManualSection[]} manual
   * @param {EditorsCalls} calls
   */
  constructor(bench, errorMessages, manual, calls) {
    this.bench = bench;
    this.errorMessages = errorMessages;
    this.calls = calls;
    this.instructions = readInstructions(manual);
    this.tables = readBoardTables(manual);
    this.program = this.makeProgramEditor();
    this.board = this.makeBoardEditor();
    /** @type {string | null} the board's text while it is being applied; null at other times */
    this.pendingBoardText = null;
    this.errorFinder = this.makeErrorFinder(errorMessages);
    this.programErrors = new LiveErrors((isWanted) => this.errorFinder.findInProgram(this.program.text, isWanted),
      (result) => this.showFoundErrors("program", result), calls.reportFailure);
    onClick(button("assemble-only"), () => this.assembleOnly().catch(calls.reportFailure));
    onClick(button("first-board"), () => this.applyFirstBoard().catch(calls.reportFailure));
    this.boardErrors = new LiveErrors((isWanted) => this.errorFinder.findInBoard(this.board.text, isWanted),
      (result) => this.showFoundErrors("board", result), calls.reportFailure);
  }

  /** @param {ErrorMessages} errorMessages */
  makeErrorFinder(errorMessages) {
    return new TextErrorFinder({
      findBoardError: (benchText) => this.bench.call("findBoardError", [benchText]),
      findLineErrors: (benchText) => this.bench.call("findLineErrors", [benchText]),
      findRefusal: (benchText) => this.findRefusal("asm", benchText),
      readMap: async (benchText) => (await this.bench.call("checkProgram", [benchText])).map,
      readRomNumbers: () => this.readRomNumbers(),
    }, { instructions: this.instructions, tables: this.tables }, (number) => errorMessages.refusalMeaning(number));
  }

  makeProgramEditor() {
    return new TextEditorView("program-editor", {
      mark: ";",
      colours: makeAssemblyColours(new Set(this.instructions.keys())),
      gutters: ["breakpoints", "numbers", "addresses", "counts"],
      // A new line begins with a tab, because most statements are indented.
      indent: "\t",
      folds: FOLD_PATTERNS.program,
      isInstruction: (word) => this.instructions.has(word),
      describeWord: (lines, line, offset) => helpForProgram(lines, line, offset, this.instructions, this.calls.describeName),
      valuesAt: (text, offset) => this.calls.valuesAt(text, offset),
      makeEditable: (cell, value) => this.calls.makeEditable(cell, value),
      complete: (lines, line, offset) => completeProgram(lines, line, offset, this.instructions),
    }, {
      handleEdits: (edits) => {
        this.programErrors.handleEdit();
        this.calls.handleEdits(edits);
      },
      send: () => this.assembleAndRun().catch(this.calls.reportFailure),
      toggleBreakpoint: this.calls.toggleBreakpoint,
      editBreakpoint: this.calls.editBreakpoint,
      openMarginMenu: this.calls.openMarginMenu,
    });
  }

  makeBoardEditor() {
    return new TextEditorView("board-editor", {
      mark: "#",
      colours: colourBoardLine,
      gutters: ["numbers"],
      folds: FOLD_PATTERNS.board,
      describeWord: (lines, line, offset) => helpForBoard(lines, line, offset, this.tables),
      complete: (lines, line, offset) => completeBoard(lines, line, offset, this.tables),
    }, {
      handleEdits: () => {
        this.boardErrors.handleEdit();
        this.calls.handleEdits([]);
      },
      send: () => this.applyBoard().catch(this.calls.reportFailure),
      toggleBreakpoint: () => {},
    });
  }

  /**
   * Checks the source and the board's text. Called after another session has been opened, and after the bench's board has changed.
   * @param {boolean} isEmpty true if the bench has no board
   */
  checkTexts(isEmpty) {
    this.showFirstBoardOffer(isEmpty);
    this.programErrors.checkNow().catch(this.calls.reportFailure);
    this.boardErrors.checkNow().catch(this.calls.reportFailure);
  }

  /**
   * Shows or hides the button that inserts a first board. If the button has the focus when it disappears, the focus moves to the heading of
   * the front panel.
   * @param {boolean} isShown
   */
  showFirstBoardOffer(isShown) {
    const offerBlock = block("board-offer");
    const hadFocus = offerBlock.contains(document.activeElement);
    offerBlock.hidden = !isShown;
    const heading = block("front-title").querySelector("button");
    if (hadFocus && !isShown && heading) heading.focus();
  }

  /**
   * Resolves to the error with which the bench would reject a text, or to null if the bench would accept it. The session stays unchanged.
   * @param {"asm" | "wire"} command
   * @param {string} text
   */
  async findRefusal(command, text) {
    const [answer] = await this.bench.call("ask", [`${command}\n${text}.\n`]);
    return toTextRefusal(parseRefusal(answer));
  }

  /**
   * @param {"program" | "board"} name
   * @param {TextErrors} result
   */
  showFoundErrors(name, { errors, isComplete }) {
    const shownErrors = name === "board" ? [...errors, ...findFrontPanelErrors(this.board.text)] : errors;
    const moreNote = isComplete || errors.length < 2 ? "" : say.MAY_BE_MORE;
    this[name].showErrors(shownErrors.slice(0, MAX_LISTED_ERRORS), moreErrorsMessage(shownErrors, MAX_LISTED_ERRORS) || moreNote);
    this.calls.showErrorCount(name, shownErrors.length);
  }

  /** Loads the program into ROM, clears the ROM bytes that other programs have left, resets the processor and resumes time. */
  async assembleAndRun() {
    if (!(await this.hasNoErrors("program"))) return;
    await this.calls.pauseTime();
    const { benchText } = this.program;
    const { size, remainingAddresses } = await this.bench.call("findLeftovers", [benchText]);
    const lines = createProgramTexts(benchText, remainingAddresses).map((text) => `asm\n${text}.\n`).join("");
    const answer = await this.calls.serveLines(`${lines}reset\n`);
    if (answer === null) return;
    const refusal = parseRefusal(answer);
    const successMessage = say.assembledAndRunning(formatQuantity(size, "byte"));
    this.program.showMessage(refusal ? this.describeRefusal(refusal) : successMessage);
    if (refusal) return;
    await this.calls.handleAssembly(true);
    this.calls.resumeTime();
  }

  /** Loads the program into ROM. Changes nothing else. */
  async assembleOnly() {
    if (!(await this.hasNoErrors("program"))) return;
    const { benchText } = this.program;
    const answer = await this.calls.serveLines(`asm\n${benchText}.\n`);
    if (answer === null) return;
    const refusal = parseRefusal(answer);
    if (!refusal) await this.calls.handleAssembly(false);
    const leftovers = await this.bench.call("findLeftovers", [benchText]);
    this.program.showMessage(refusal ? this.describeRefusal(refusal) : describeAssembledProgram(leftovers, this.calls.counter()));
  }

  async applyBoard() {
    if (!(await this.hasNoErrors("board"))) return;
    const { text, benchText } = this.board;
    this.pendingBoardText = text;
    const answer = await this.calls.serveLines(`wire\n${benchText}.\n`).finally(() => {
      this.pendingBoardText = null;
    });
    if (answer === null) return;
    const refusal = parseRefusal(answer);
    this.board.showMessage(refusal ? this.describeRefusal(refusal) : say.BOARD_APPLIED);
    await this.programErrors.checkNow();
  }

  /** Replaces the board's text with the text of the tour's board, and applies it. */
  async applyFirstBoard() {
    this.calls.replaceBoard(TOUR_BOARD, say.FIRST_BOARD_INSERTED);
    await this.applyBoard();
  }

  /** @param {import("../../core/bench/answers.js").Refusal} refusal */
  describeRefusal({ number }) {
    return `no ${number}: ${this.errorMessages.refusalMeaning(number)}`;
  }

  /**
   * Checks a text before it is sent. Resolves to true if the text has no errors. Otherwise shows the first error and resolves to false. If
   * an edit has cancelled the check, resolves to false without a message.
   * @param {"program" | "board"} name
   */
  async hasNoErrors(name) {
    const result = await (name === "program" ? this.programErrors : this.boardErrors).checkNow();
    if (result && result.errors.length > 0) this.reportErrors(name, result.errors);
    return result !== undefined && result.errors.length === 0;
  }

  /**
   * Resolves to true if a text is probably not a program: every line has an error, except blank lines and comments.
   * @param {string} text
   */
  async isProbablyNotProgram(text) {
    const result = await this.errorFinder.findInProgram(text, () => true);
    return result !== undefined && isProbablyNotProgram(text, result);
  }

  /**
   * Reports that a text is not sent because it has errors. Scrolls to the first error.
   * @param {"program" | "board"} name
   * @param {TextError[]} errors
   */
  reportErrors(name, errors) {
    const [{ line, words }] = errors;
    this[name].showMessage(say.firstErrorMessage(line, words, errors.length - 1));
    this[name].reveal(line);
  }

  /** Resolves to the numbers of the ROM chips on the current board. */
  async readRomNumbers() {
    return new Set(readBoard(await this.bench.call("ask", ["board\n"])).roms.map(({ chip }) => chip));
  }
}
