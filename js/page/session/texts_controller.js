// Saves the current session's texts, replaces texts, and restores replaced texts.

import { formatQuantity } from "../../core/bench/numbers.js";
import * as say from "../../words/session.js";

/**
 * @typedef {import("../ui/confirm_dialog.js").ConfirmDialog} ConfirmDialog
 * @typedef {import("./open_session.js").OpenSession} OpenSession
 * @typedef {import("../ui/notice.js").Notice} Notice
 * @typedef {{ text: string, open: (sessionId: string, text: string) => void, replaceText: (text: string) => void,
 *   undoOrRedo: (direction: "undo" | "redo") => boolean }} TextEditor
 */

/**
 * The callbacks of TextsController.
 * @typedef {object} TextsCalls
 * @property {() => OpenSession | null} session Returns the current session, or null if there is none.
 * @property {() => void} markChanged Records that the user has changed the session.
 * @property {() => Promise<string>} save Saves the session. Resolves to the reason why it could not be saved, or to "".
 * @property {() => void} handleEdit Handles an edit of a text.
 * @property {(boardText: string) => void} updateNames Updates the names that come from the board's text, which may have changed.
 * @property {() => Promise<string>} disassembleRom Resolves to source text that assembles to the contents of ROM. Rejects if the bench
 *   fails.
 * @property {(text: string) => Promise<boolean>} isProbablyNotProgram Resolves to true if a text is probably not a program, because every
 *   line that is not blank or a comment has an error.
 * @property {(shownName: TextName, lines: string) => void} handleLoadedTexts Handles texts that were loaded from a file. Shows the text
 *   `shownName` and puts `lines` into the console's input.
 * @property {(error: unknown) => void} reportFailure Reports an error that a call threw.
 */

/**
 * @typedef {keyof typeof say.TEXT_SUBJECTS} TextName
 *
 * A replaced text: its name, the old text and the new text. `undoStep` is the step in the editor that restores the old text. This step is
 * possible until the user edits the text.
 * @typedef {{ name: TextName, oldText: string, newText: string, undoStep: "undo" | "redo" }} ReplacedText
 */

/** The delay in milliseconds between the last edit and the save. */
const SAVE_DELAY_MS = 600;

/**
 * Returns the number of lines in a text with its unit, for example "12 lines".
 * @param {string} text
 */
export function formatLineCount(text) {
  const count = text === "" ? 0 : text.replace(/\n$/, "").split("\n").length;
  return formatQuantity(count, "line");
}

export class TextsController {
  /**
   * @param {TextEditor} board
   * @param {TextEditor} program
   * @param {TextEditor} tests
   * @param {TextEditor} properties
   * @param {ConfirmDialog} confirmDialog
   * @param {Notice} notice
   * @param {TextsCalls} calls
   */
  constructor(board, program, tests, properties, confirmDialog, notice, calls) {
    this.board = board;
    this.program = program;
    this.tests = tests;
    this.properties = properties;
    this.confirmDialog = confirmDialog;
    this.notice = notice;
    this.calls = calls;
    /** The timer that saves the last edit. */
    this.saveTimer = 0;
  }

  /**
   * Shows another session's texts.
   * @param {{ id: string, boardText: string, programText: string, testText?: string, propertiesText?: string }} record
   */
  show({ id, boardText, programText, testText = "", propertiesText = "" }) {
    clearTimeout(this.saveTimer);
    this.board.open(id, boardText);
    this.program.open(id, programText);
    this.tests.open(id, testText);
    this.properties.open(id, propertiesText);
  }

  /** Saves the texts SAVE_DELAY_MS after the last edit, and updates the names that come from the board's text. */
  handleEdit() {
    const session = this.calls.session();
    if (!session) return;
    const { record } = session;
    record.boardText = this.board.text;
    record.programText = this.program.text;
    record.testText = this.tests.text;
    record.propertiesText = this.properties.text;
    this.calls.markChanged();
    this.calls.handleEdit();
    clearTimeout(this.saveTimer);
    this.saveTimer = setTimeout(() => {
      this.calls.updateNames(record.boardText);
      this.calls.save();
    }, SAVE_DELAY_MS);
  }

  /**
   * Loads a file's texts. If the file's kind was guessed and its source is probably not a program, asks the user first.
   * @param {string} name the name of the file
   * @param {import("../../core/session/opened_file.js").FileTexts} texts
   */
  async open(name, texts) {
    const session = this.calls.session();
    const { program, isGuess } = texts;
    const isSuspicious = isGuess === true && program !== null && (await this.calls.isProbablyNotProgram(program));
    const title = say.replaceByProbableNonProgram(name);
    const question = { title, paragraphs: [say.eachLineWrong(name)], acceptLabel: say.REPLACE_IT, declineLabel: say.LEAVE_AS_IS };
    if (isSuspicious && !(await this.confirmDialog.ask(question))) return;
    if (session && this.isCurrent(session)) this.loadTexts(name, texts);
  }

  /**
   * Loads a file's texts into the editors. The user can restore the previous texts. The texts are not sent to the bench.
   * @param {string} name the name of the file
   * @param {import("../../core/session/opened_file.js").FileTexts} texts
   */
  loadTexts(name, { board, program, tests, properties, lines }) {
    if (tests !== null) this.loadSingleText("tests", name, tests);
    if (properties !== null) this.loadSingleText("properties", name, properties);
    if (tests !== null || properties !== null) return;
    const replacedTexts = board === null ? [] : this.replaceText("board", board);
    if (program !== null) replacedTexts.push(...this.replaceText("program", program));
    this.calls.handleLoadedTexts(board !== null ? "board" : "program", lines);
    const [firstText, buttonEffect] = board === null ? [say.SOURCE, say.ASSEMBLE_HINT] : [say.BOARD, say.APPLY_BOARD_HINT];
    const hasBoth = board !== null && program !== null;
    const destination = hasBoth ? say.BOARD_AND_SOURCE : firstText;
    this.showReplacementNotice(replacedTexts, say.textIsIn(name, destination, buttonEffect, hasBoth ? say.THEN_ASSEMBLE : ""));
  }

  /**
   * Loads the text of a tests file or a properties file into its editor.
   * @param {"tests" | "properties"} textName
   * @param {string} name the name of the file
   * @param {string} text
   */
  loadSingleText(textName, name, text) {
    const replacedTexts = this.replaceText(textName, text);
    this.calls.handleLoadedTexts(textName, "");
    this.showReplacementNotice(replacedTexts, `${name} ${say.OPENED_IN[textName]}`);
  }

  /**
   * Shows one notice about all texts of a file. The notice offers undo if a text was replaced.
   * @param {ReplacedText[]} replacedTexts
   * @param {string} message
   */
  showReplacementNotice(replacedTexts, message) {
    const session = this.calls.session();
    if (session && replacedTexts.length > 0) this.offerUndo(session, replacedTexts, message);
    else this.notice.show(message, "file");
  }

  async disassembleRom() {
    const session = this.calls.session();
    if (!session) return;
    try {
      const disassembly = await this.calls.disassembleRom();
      const oldText = this.program.text;
      if (disassembly === oldText) {
        this.notice.show(say.SAME_AS_ROM, "refusal");
      } else if (oldText.trim() === "" || (await this.confirmReplacing(oldText, disassembly))) {
        if (this.isCurrent(session)) this.replace("program", disassembly, say.DISASSEMBLED);
      }
    } catch (error) {
      this.calls.reportFailure(error);
    }
  }

  /**
   * @param {string} oldText
   * @param {string} disassembly
   */
  confirmReplacing(oldText, disassembly) {
    return this.confirmDialog.ask({
      title: say.REPLACE_SOURCE,
      paragraphs: [say.sizesOfSources(formatLineCount(oldText), formatLineCount(disassembly))],
      acceptLabel: say.REPLACE_IT,
      declineLabel: say.LEAVE_AS_IS,
    });
  }

  /** @param {OpenSession} session */
  isCurrent(session) {
    const currentSession = this.calls.session();
    return currentSession !== null && currentSession.record.id === session.record.id;
  }

  /**
   * Replaces a text. A notice offers to restore the previous text.
   * @param {TextName} name
   * @param {string} text
   * @param {string} message the text of the notice
   */
  replace(name, text, message) {
    const session = this.calls.session();
    const replacedTexts = this.replaceText(name, text);
    if (session && replacedTexts.length > 0) this.offerUndo(session, replacedTexts, message);
  }

  /**
   * Replaces a text. Returns a list with the entry that can restore the previous text. The list is empty if the text has not changed, if
   * the previous text was blank, or if no session is open.
   * @param {TextName} name
   * @param {string} text
   * @returns {ReplacedText[]}
   */
  replaceText(name, text) {
    if (!this.calls.session()) return [];
    const oldText = this[name].text;
    this[name].replaceText(text);
    this.handleEdit();
    return oldText.trim() !== "" && oldText !== text ? [{ name, oldText, newText: text, undoStep: "undo" }] : [];
  }

  /**
   * Restores the old text of a replacement with the editor's undo or redo. If the user has edited the text since the replacement, restores
   * the old text with a new edit.
   * @param {ReplacedText} replacedText
   * @returns {ReplacedText[]} entries that can undo this restoration
   */
  restoreText({ name, oldText, newText, undoStep }) {
    const editor = this[name];
    if (editor.text !== newText || !editor.undoOrRedo(undoStep) || editor.text !== oldText) return this.replaceText(name, oldText);
    this.handleEdit();
    return [{ name, oldText: newText, newText: oldText, undoStep: undoStep === "undo" ? "redo" : "undo" }];
  }

  /**
   * @param {OpenSession} session
   * @param {ReplacedText[]} replacedTexts
   * @param {string} message
   */
  offerUndo(session, replacedTexts, message) {
    this.notice.show(message, "undo", { label: say.UNDO, act: () => this.restoreTexts(session, replacedTexts, message) });
  }

  /**
   * Restores texts. Another notice offers to undo this restoration. If another session is open, reports this to the user and restores
   * nothing.
   * @param {OpenSession} session
   * @param {ReplacedText[]} replacedTexts
   * @param {string} message the text of the notice that offered to restore the texts
   */
  restoreTexts(session, replacedTexts, message) {
    if (!this.isCurrent(session)) {
      this.offerUndo(session, replacedTexts, message);
      this.notice.show(say.inOtherSession(session.record.name), "refusal");
      return;
    }
    const undoEntries = replacedTexts.flatMap((text) => this.restoreText(text));
    const [{ name }] = replacedTexts;
    const restoredMessage = replacedTexts.length > 1 ? say.TEXTS_RESTORED : say.textRestored(say.TEXT_SUBJECTS[name]);
    if (undoEntries.length > 0) this.offerUndo(session, undoEntries, restoredMessage);
  }
}
