// The editor of the Tests tab or the Properties tab. The editor completes names of the board and the program, and shows errors while the
// user types.

import { Face, moreErrorsMessage } from "../../core/board/face.js";
import { button, onClick } from "../ui/dom.js";
import { TextEditorView } from "./text_editor_view.js";
import { FOLD_PATTERNS } from "../../core/text/folding.js";
import { LiveErrors } from "./live_errors.js";
import { LINE_COLOURERS } from "../../core/text/test_colours.js";

/**
 * @typedef {import("../../core/testing/test_preparation.js").ProjectTextError} ProjectTextError
 * @typedef {import("../../core/text/completion.js").Completion} Completion
 * @typedef {{ keys: string[], lamps: string[], labels: string[] }} Names the names that the board and the program define
 */

/**
 * The callbacks through which the editor acts on the tab that contains it.
 * @typedef {object} TabCalls
 * @property {() => Promise<ProjectTextError[]>} findErrors Resolves to the errors of the board, the program and this text.
 * @property {(count: number) => void} showErrorCount Shows the number of errors in this text.
 * @property {() => void} send Performs the action of the tab's first button.
 * @property {() => void} [prove] Proves the properties in the text. Missing for tests.
 */

/**
 * The callbacks that the editors of tests and properties share.
 * @typedef {object} SharedTextCalls
 * @property {() => { boardText: string }} texts Returns an object with the board's text.
 * @property {() => string[]} labels Returns the labels of the program in ROM.
 * @property {() => void} handleEdit Handles an edit of the text.
 * @property {(error: unknown) => void} reportFailure Reports an error that a call threw.
 */

/**
 * A kind of text: tests or properties. `name` is also a part of the editor's id. `insertButton` is the id of the button that inserts
 * `firstText`. `forms` are the syntax forms of its lines. `describeWord` describes a word, and `complete` completes it.
 * @template Forms
 * @typedef {{ name: "tests" | "properties", insertButton: string, firstText: (names: Names) => string | Promise<string>, forms: Forms,
 *   describeWord: (lines: string[], line: number, offset: number, forms: Forms) => string,
 *   complete: (lines: string[], line: number, offset: number, names: Names, forms: Forms) => Completion }} TextKind
 */

const MAX_LISTED_ERRORS = 20;

/** @template Forms */
export class TextTab {
  /**
   * @param {TextKind<Forms>} kind
   * @param {SharedTextCalls} calls
   * @param {TabCalls} tabCalls
   */
  constructor(kind, calls, tabCalls) {
    this.kind = kind;
    this.calls = calls;
    this.tabCalls = tabCalls;
    this.editor = new TextEditorView(`${kind.name}-editor`, {
      mark: "#",
      colours: LINE_COLOURERS[kind.name],
      gutters: ["numbers"],
      folds: FOLD_PATTERNS.tests,
      isNeverSent: true,
      describeWord: (lines, line, offset) => kind.describeWord(lines, line, offset, kind.forms),
      complete: (lines, line, offset) => kind.complete(lines, line, offset, this.names(), kind.forms),
    }, {
      handleEdits: () => this.handleEdit(),
      send: tabCalls.send,
      prove: tabCalls.prove,
      toggleBreakpoint: () => {},
    });
    this.liveErrors = new LiveErrors(() => this.findErrors(), (errors) => this.showErrors(errors), calls.reportFailure);
    onClick(button(kind.insertButton), () => this.insertFirstText().catch(calls.reportFailure));
  }

  /** @returns {Names} */
  names() {
    const face = new Face(this.calls.texts().boardText);
    const keys = [...face.keys.values()].map(({ text }) => text).filter((name) => name !== "");
    return { keys: face.test ? [...keys, face.test.name] : keys, lamps: [...face.lampNumbers.keys()], labels: this.calls.labels() };
  }

  /** Inserts the first text. Does nothing if the editor is not empty, or if the board has changed in the meantime. */
  async insertFirstText() {
    const { boardText } = this.calls.texts();
    const text = await this.kind.firstText(this.names());
    if (this.editor.text.trim() === "" && this.calls.texts().boardText === boardText) this.editor.replaceText(text);
  }

  handleEdit() {
    this.updateFirstTextOffer();
    this.liveErrors.handleEdit();
    this.calls.handleEdit();
  }

  /** Shows the button for a first text only while the editor is empty. */
  updateFirstTextOffer() {
    button(this.kind.insertButton).hidden = this.editor.text.trim() !== "";
  }

  /**
   * Checks the text. Called when a session has been opened and when the tab is brought to the front, because the names that the text uses
   * may have changed.
   */
  refresh() {
    this.updateFirstTextOffer();
    this.liveErrors.checkNow().catch(this.calls.reportFailure);
  }

  /** Resolves to the errors of the board, the program and this text. Resolves to an empty list if this text is empty. */
  async findErrors() {
    return this.editor.text.trim() === "" ? [] : this.tabCalls.findErrors();
  }

  /** @param {ProjectTextError[]} errors the errors of the board, the program and this text */
  showErrors(errors) {
    const { lines } = this.editor;
    const entries = errors.filter(({ text }) => text === this.kind.name).map(({ line, number, words }) => {
      const text = lines[line - 1] || "";
      return { number, line, from: text.length - text.trimStart().length, to: text.length, words };
    });
    this.editor.showErrors(entries.slice(0, MAX_LISTED_ERRORS), moreErrorsMessage(entries, MAX_LISTED_ERRORS));
    this.tabCalls.showErrorCount(entries.length);
  }
}
