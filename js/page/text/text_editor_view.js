// The view of a text: its editor, its errors, its search bar, and a description of the word at the pointer or the caret.

import { Cell, block, findDescendant, element, onClick } from "../ui/dom.js";
import { makeEditorBindings } from "../commands/keys.js";
import { CountMarks } from "./count_marks.js";
import { ErrorView } from "./error_view.js";
import { makeFoldingActions } from "./fold_view.js";
import { LineMarks } from "./line_marks.js";
import { LineValues } from "./line_values.js";
import { MeaningView } from "./meaning_view.js";
import { NameView } from "./name_view.js";
import { SearchBar } from "./search_bar.js";
import { TextEditor } from "./text_editor.js";
import { MAX_STORED_LENGTH, MAX_SENT_LENGTH, toAsciiComments, sentText } from "../../core/text/sendable_text.js";
import * as say from "../../words/text.js";

/**
 * @typedef {import("../../core/machine/breakpoint_marks.js").BreakpointMark} BreakpointMark
 * @typedef {import("../../core/text/completion.js").Completion} Completion
 * @typedef {import("../../core/debug/word_values.js").Piece} Piece
 * @typedef {import("../../core/text/sendable_text.js").TextError} TextError
 * @typedef {import("../commands/command_table.js").TextAction} TextAction
 * @typedef {import("./line_editor.js").Position} Position
 * @typedef {import("../../core/debug/breakpoints.js").Edit} Edit
 *
 * @typedef {import("../machine/breakpoint_form.js").BreakpointField} BreakpointField
 */

/**
 * The language of a text. Lines and offsets in a line count from 0.
 * @typedef {object} Language
 * @property {import("../../core/text/sendable_text.js").CommentMark} mark The character that begins a comment.
 * @property {import("./line_colours.js").Colours} colours Returns the coloured ranges of a line.
 * @property {string[]} gutters The names of the gutters besides the error gutter.
 * @property {string} [indent] The indentation of a new line, by default that of the previous line.
 * @property {import("../../core/text/folding.js").FoldPatterns} [folds] The patterns of the foldable parts of the text.
 * @property {(word: string) => boolean} [isInstruction] Returns true if a word in upper case is an instruction. Missing for texts without
 *   names.
 * @property {boolean} [isNeverSent] True if the text is never sent to the bench.
 * @property {(lines: string[], line: number, offset: number) => string} describeWord Returns the description of the word at an offset in a
 *   line, or "" if there is none.
 * @property {(text: string, offset: number) => Piece[]} [valuesAt] Returns the current values of the word at an offset in the line `text`.
 * @property {import("./meaning_view.js").MakeEditable} [makeEditable] Makes a cell that shows a value editable.
 * @property {(lines: string[], line: number, offset: number) => Completion} complete Returns the completions for the word at an offset in a
 *   line.
 */

/**
 * The callbacks of the view of a text. Lines count from 1.
 * @typedef {object} TextEditorViewCalls
 * @property {(edits: Edit[]) => void} handleEdits Handles edits of the text, in the order in which they apply.
 * @property {() => void} send Sends the text to the bench.
 * @property {() => void} [prove] Proves the properties in the text. Missing for texts of other kinds.
 * @property {(line: number) => void} toggleBreakpoint Sets or removes the breakpoint at a line.
 * @property {(line: number, fieldName: BreakpointField) => void} [editBreakpoint] Opens a field of the breakpoint at a line. Missing for
 *   texts without breakpoints.
 * @property {(line: number, point: { left: number, bottom: number }) => void} [openMarginMenu] Opens the margin menu of a line at a point
 *   of the window, in pixels. Missing for texts without this menu.
 */

/** The time in milliseconds for which the pointer or the caret must rest before its word is described. */
const REST_DELAY_MS = 150;

export class TextEditorView {
  /**
   * @param {string} id
   * @param {Language} language
   * @param {TextEditorViewCalls} calls
   */
  constructor(id, language, calls) {
    this.language = language;
    this.calls = calls;
    const root = block(id);
    const panel = findDescendant(root, ".paper", HTMLElement);
    const container = element("div", { className: "text" });
    const errorList = element("ul", { "className": "fault-list", "aria-label": say.ERRORS });
    this.meaning = new MeaningView(language.makeEditable || (() => {}));
    this.sizeCell = new Cell(element("p", { className: "size" }));
    panel.append(container, errorList, element("div", { className: "strip" }, this.meaning.node, this.sizeCell.node));
    this.status = new Cell(findDescendant(root, ".status-text", HTMLElement));
    const label = findDescendant(root, "h2", HTMLElement).textContent || "";
    const { colours, gutters, indent, folds, isInstruction = () => false } = language;
    const [keys, textCalls] = [this.makeKeyMap(), this.makeTextCalls()];
    this.editor = new TextEditor({ container, label, colours, gutters, indent, folds, keys, isInFront: () => !root.hidden,
      calls: textCalls });
    const { lineEditor } = this.editor;
    /** @type {(errors: TextError[]) => void} the listener for changes of the errors */
    this.onErrorsChange = () => {};
    this.marks = new LineMarks(lineEditor);
    this.counts = new CountMarks(lineEditor, this.marks);
    this.lineValues = new LineValues(lineEditor);
    this.errorView = new ErrorView(lineEditor, this.marks, errorList, (error) => this.goToError(error));
    this.search = new SearchBar(lineEditor, panel, label);
    this.names = new NameView(this.editor, panel, { isInstruction, showMessage: (message) => this.status.set(message) });
    /** The timer that starts the description of the word at the pointer or the caret. */
    this.descriptionTimer = 0;
    /** The timer that updates the displayed size of the text. */
    this.sizeTimer = 0;
    this.listenToPointer(container);
    lineEditor.onScroll(() => this.meaning.hideTooltip());
    onClick(findDescendant(root, ".send", HTMLButtonElement), () => calls.send());
  }

  /** @returns {import("./text_editor.js").KeyMap} */
  makeKeyMap() {
    // CodeMirror has its own key bindings for undo and redo.
    const actionEntries = Object.entries(this.makeEditingActions()).filter(([name]) => name !== "undo" && name !== "redo");
    return {
      ...makeEditorBindings("text.assembleAndRun", () => this.calls.send()),
      ...Object.assign({}, ...actionEntries.map(([name, action]) => (
        makeEditorBindings(/** @type {import("../commands/command_table.js").CommandId} */ (`text.${name}`), action)))),
      ...(this.calls.prove ? makeEditorBindings("properties.prove", this.calls.prove) : {}),
      ...makeEditorBindings("debug.breakpoint", () => this.toggleBreakpoint()),
      ...makeEditorBindings("debug.condition", () => this.editBreakpoint("condition")),
    };
  }

  /**
   * Returns the editing actions of this text, by their names in the command table.
   * @returns {Partial<Record<TextAction, () => void>>}
   */
  makeEditingActions() {
    const { folds, isInstruction, mark } = this.language;
    const foldingActions = folds ? makeFoldingActions(folds) : {};
    const foldingEntries = Object.entries(foldingActions).map(([name, action]) => [name, () => action(this.editor.lineEditor)]);
    return {
      find: () => this.search.open(),
      replace: () => this.search.open(true),
      line: () => this.names.goToLine(),
      comment: () => this.editor.toggleComment(mark),
      complete: () => this.editor.lineEditor.complete(),
      ...(isInstruction ? {
        define: () => this.names.goToDefinition(), uses: () => this.names.listReferences(), rename: () => this.names.askNewName(),
      } : {}),
      ...Object.fromEntries(foldingEntries),
      undo: () => this.undoOrRedo("undo"),
      redo: () => this.undoOrRedo("redo"),
    };
  }

  /**
   * Focuses the text and performs an action in it.
   * @param {TextAction} name
   */
  performAction(name) {
    const action = this.makeEditingActions()[name];
    if (!action) return;
    this.editor.lineEditor.focus();
    action();
  }

  /** Sets or removes the breakpoint at the caret's line. */
  toggleBreakpoint() {
    this.calls.toggleBreakpoint(this.editor.lineEditor.getCursor().line + 1);
  }

  /**
   * Opens a field of the breakpoint at the caret's line.
   * @param {BreakpointField} fieldName
   */
  editBreakpoint(fieldName) {
    const { editBreakpoint } = this.calls;
    if (editBreakpoint) editBreakpoint(this.editor.lineEditor.getCursor().line + 1, fieldName);
  }

  /** @returns {import("./text_editor.js").TextEditorCalls} */
  makeTextCalls() {
    return {
      handleEdits: (edits) => this.handleEdits(edits),
      handleCaretMove: () => this.scheduleDescription(),
      handleGutterClick: (line) => this.calls.toggleBreakpoint(line),
      handleGutterMenu: (line, event) => this.openMarginMenu(line, event),
      handleNameClick: () => this.language.isInstruction && this.names.goToDefinition(),
      reportTooLong: (size) => this.status.set(say.notInsertedMessage(size.toLocaleString("en"), MAX_STORED_LENGTH.toLocaleString("en"))),
      complete: ({ line, ch }) => this.language.complete(this.lines, line, ch),
    };
  }

  /**
   * Opens the margin menu of a line at the pointer.
   * @param {number} line
   * @param {Event} event
   */
  openMarginMenu(line, event) {
    const { openMarginMenu: openMenu } = this.calls;
    if (!openMenu || !(event instanceof MouseEvent)) return;
    event.preventDefault();
    openMenu(line, { left: event.clientX, bottom: event.clientY });
  }

  /** @param {HTMLElement} container */
  listenToPointer(container) {
    container.addEventListener("pointermove", (event) => {
      this.meaning.hideTooltip();
      clearTimeout(this.descriptionTimer);
      this.descriptionTimer = window.setTimeout(() => this.describeAtPointer(event.clientX, event.clientY), REST_DELAY_MS);
    });
    container.addEventListener("pointerleave", () => {
      this.meaning.hideTooltip();
      this.scheduleDescription();
    });
  }

  /**
   * Describes the word under the pointer, and shows its values in a tooltip.
   * @param {number} left
   * @param {number} top
   */
  describeAtPointer(left, top) {
    const position = this.editor.lineEditor.positionAt({ left, top });
    const helpText = this.messageOrHelpAt(position);
    const values = this.valuesAt(position);
    if (helpText || values.length > 0) this.meaning.showMeaning(values, helpText);
    this.meaning.showTooltip(values, { left, top });
  }

  /**
   * Returns the current values of the word at a position, or an empty list if there are none.
   * @param {Position} position
   * @returns {Piece[]}
   */
  valuesAt({ line, ch }) {
    const { valuesAt } = this.language;
    return valuesAt ? valuesAt(this.editor.lineEditor.getLine(line) || "", ch) : [];
  }

  /** Describes the word at the caret. */
  describeAtCaret() {
    const position = this.editor.lineEditor.getCursor();
    this.meaning.hideTooltip();
    this.meaning.showMeaning(this.valuesAt(position), this.messageOrHelpAt(position));
  }

  /**
   * Returns the error message at a position. If there is none, returns the description of the word there, or "".
   * @param {Position} position
   */
  messageOrHelpAt(position) {
    return this.errorView.messageAt(position) || this.language.describeWord(this.lines, position.line, position.ch);
  }

  /** Schedules the description of the word at the caret after REST_DELAY_MS. Without this delay, typing would be slower. */
  scheduleDescription() {
    clearTimeout(this.descriptionTimer);
    this.descriptionTimer = window.setTimeout(() => this.describeAtCaret(), REST_DELAY_MS);
  }

  get text() {
    return this.editor.text;
  }

  set text(text) {
    this.open(this.editor.sessionId, text);
  }

  /** The text as it is sent to the bench. */
  get benchText() {
    return sentText(this.text, this.language.mark);
  }

  /** The text to which the positions of the bench's errors refer. */
  get alignedText() {
    return toAsciiComments(this.text, this.language.mark);
  }

  get lines() {
    return this.text.split("\n");
  }

  /**
   * Shows a session's text.
   * @param {string} sessionId the session's id
   * @param {string} text
   */
  open(sessionId, text) {
    this.counts.clear();
    this.lineValues.show(new Map());
    this.marks.clear();
    this.showErrors([]);
    this.status.set("");
    this.editor.open(sessionId, text);
    this.scheduleSizeUpdate();
    this.meaning.showMeaning([], "");
  }

  /**
   * Replaces the entire text as one undo step.
   * @param {string} text
   */
  replaceText(text) {
    this.editor.replaceText(text);
  }

  /**
   * Undoes or redoes one step. Returns false if there is none.
   * @param {"undo" | "redo"} direction
   */
  undoOrRedo(direction) {
    return this.editor.undoOrRedo(direction);
  }

  /**
   * Marks the line of the next instruction and scrolls it into view.
   * @param {number} line the line number from 1, or 0 to mark no line
   */
  showNextInstruction(line) {
    this.marks.showNextInstruction(line);
    if (line > 0) this.editor.reveal(line);
  }

  /** @param {number} line from 1 */
  reveal(line) {
    this.editor.reveal(line);
  }

  /** @param {Map<number, BreakpointMark>} marks the breakpoint marks, by line */
  showBreakpoints(marks) {
    const noMark = { mark: "", description: "" };
    this.marks.showTexts("breakpoints", (line) => (marks.get(line) || noMark).mark, (line) => (marks.get(line) || noMark).description);
  }

  /** @param {string[]} addresses the address of each line, or "" if the line has none */
  showAddresses(addresses) {
    this.marks.showTexts("addresses", (line) => addresses[line - 1] || "");
  }

  /**
   * @param {TextError[]} errors
   * @param {string} [footnote]
   */
  showErrors(errors, footnote = "") {
    this.errorView.show(errors, footnote);
    this.onErrorsChange(errors);
    this.scheduleDescription();
  }

  /** @param {TextError} error the error to go to */
  goToError({ line, from }) {
    this.editor.goTo({ line: line - 1, ch: from });
  }

  /**
   * Shows a message about the text.
   * @param {string} message
   */
  showMessage(message) {
    this.status.set(message);
  }

  /** @param {Edit[]} edits */
  handleEdits(edits) {
    this.status.set("");
    this.scheduleSizeUpdate();
    this.calls.handleEdits(edits);
  }

  /** Schedules the update of the displayed size of the text after REST_DELAY_MS. Without this delay, typing would be slower. */
  scheduleSizeUpdate() {
    clearTimeout(this.sizeTimer);
    this.sizeTimer = window.setTimeout(() => {
      const { isNeverSent } = this.language;
      const [{ length }, limit, unit] = isNeverSent
        ? [this.text, MAX_STORED_LENGTH, "characters"]
        : [this.benchText, MAX_SENT_LENGTH, "bytes"];
      this.sizeCell.set(say.textSize(length.toLocaleString("en"), limit.toLocaleString("en"), unit));
      this.sizeCell.node.classList.toggle("too-many", length > limit);
    }, REST_DELAY_MS);
  }
}
