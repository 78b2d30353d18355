// An editor with the features that all texts of the page share. Each opened text has its own state with its undo history. The states of
// recently opened sessions stay in memory until the page is closed.

import { EditorView } from "@codemirror/view";
import { indices } from "../../core/bench/numbers.js";
import { makeFolding, unfold } from "./fold_view.js";
import { LineEditor } from "./line_editor.js";
import { MAX_STORED_LENGTH, toggleComments } from "../../core/text/sendable_text.js";
import * as say from "../../words/text.js";

/**
 * @typedef {import("./line_editor.js").KeyMap} KeyMap
 * @typedef {import("./line_editor.js").Position} Position
 * @typedef {import("../../core/debug/breakpoints.js").Edit} Edit
 *
 * The options of an editor. `label` is its name for screen readers, and `colours` its syntax colouring. `gutters` are its gutters besides
 * the error gutter. `indent` is the indentation of a new line, by default that of the previous line. `folds` has the patterns of the
 * foldable parts of its text. `keys` are its additional key bindings. `isInFront` returns true if no tab hides the editor.
 * @typedef {{ container: HTMLElement, label: string, colours: import("./line_colours.js").Colours, gutters: string[], indent?: string,
 *   folds?: import("../../core/text/folding.js").FoldPatterns, keys: KeyMap, isInFront: () => boolean,
 *   calls: TextEditorCalls }} TextOptions
 *
 * The state of a text that is not visible, and its scroll position in pixels.
 * @typedef {{ state: import("@codemirror/state").EditorState, scrollTop: number }} StoredText
 */

/**
 * The callbacks of a text editor.
 * @typedef {object} TextEditorCalls
 * @property {(edits: Edit[]) => void} handleEdits Handles edits of the text, in the order in which they apply.
 * @property {() => void} handleCaretMove Handles a caret move.
 * @property {(line: number) => void} handleGutterClick Handles a click on a gutter. Lines count from 1.
 * @property {(line: number, event: Event) => void} handleGutterMenu Handles a right click on a gutter. Lines count from 1.
 * @property {() => void} handleNameClick Handles a Ctrl+click on a name. The click has already moved the caret to the name.
 * @property {(size: number) => void} reportTooLong Reports that a text of `size` characters is too long and was rejected.
 * @property {(position: Position) => import("../../core/text/completion.js").Completion} complete Returns the completions for the word at a
 *   position.
 */

/** The maximum number of texts whose editor state is stored. */
const MAX_STORED_TEXTS = 30;
/** The modifier keys, which have no action on their own. */
const MODIFIER_KEYS = ["Shift", "Control", "Alt", "Meta"];

export class TextEditor {
  /** @param {TextOptions} options */
  constructor(options) {
    this.calls = options.calls;
    /** @type {(line: number) => void} the listener for caret moves, which receives the line from 1 */
    this.onCaretMove = () => {};
    /** The scroll position in pixels. */
    this.scrollTop = 0;
    /** @type {number | null} the scroll position to restore once the text can be measured; null if there is none */
    this.pendingScrollTop = null;
    /** The line, counted from 1, to reveal once the text can be measured; 0 if there is none. */
    this.pendingLine = 0;
    /**
     * True if the Tab key moves the focus out of the editor: after Escape, and after the editor has received the focus, until the user
     * types or clicks in it.
     */
    this.tabMovesFocus = true;
    /** True if the editor has had the focus since its text was loaded, so that the user may have placed the caret. */
    this.hasCaret = false;
    /** @type {Map<string, StoredText>} the stored editor states, by session id */
    this.storedTexts = new Map();
    /** The id of the session whose text is shown. */
    this.sessionId = "";
    /** @type {string | null} the editor's text; null after an edit, until the text is read again */
    this.cachedText = null;
    const { container, label, colours, gutters, indent, folds, keys, isInFront } = options;
    /** @type {LineEditor} */
    this.lineEditor = new LineEditor({ container, label, description: say.TAB_INDENTS, colours, indent, keys, isInFront,
      gutters: ["faults", ...gutters],
      extensions: [...(folds ? [makeFolding(folds)] : []), this.makeEventHandlers()], calls: this.makeEditorCalls() });
    this.lineEditor.onScroll(() => {
      if (this.pendingScrollTop === null && container.offsetHeight > 0) this.scrollTop = this.lineEditor.getScrollInfo().top;
    });
    // A hidden editor cannot be measured, so its scroll position is restored when it appears.
    new ResizeObserver(() => this.handleResize()).observe(container);
  }

  /** @returns {import("./line_editor.js").LineEditorCalls} */
  makeEditorCalls() {
    const { calls } = this;
    return {
      handleEdits: (edits) => {
        this.cachedText = null;
        calls.handleEdits(edits);
      },
      handleCaretMove: () => {
        calls.handleCaretMove();
        this.onCaretMove(this.lineEditor.getCursor().line + 1);
      },
      handleGutterClick: (line) => calls.handleGutterClick(line + 1),
      handleGutterMenu: (line, event) => calls.handleGutterMenu(line + 1, event),
      acceptsSize: (size) => {
        if (size > MAX_STORED_LENGTH) calls.reportTooLong(size);
        return size <= MAX_STORED_LENGTH;
      },
      complete: calls.complete,
    };
  }

  /** @returns {import("@codemirror/state").Extension} */
  makeEventHandlers() {
    return EditorView.domEventHandlers({
      blur: () => {
        this.tabMovesFocus = true;
      },
      focus: () => {
        this.hasCaret = true;
      },
      mousedown: ({ ctrlKey, metaKey, button }) => {
        this.tabMovesFocus = false;
        if ((ctrlKey || metaKey) && button === 0) setTimeout(this.calls.handleNameClick);
      },
      keydown: (event) => this.handleKey(event),
      // The page handles dropped files itself.
      drop: ({ dataTransfer }) => dataTransfer !== null && dataTransfer.files.length > 0,
    });
  }

  get container() {
    return this.lineEditor.container;
  }

  /** Restores the scroll position when a hidden text appears again, because the browser may have changed the position. */
  handleResize() {
    if (this.container.offsetHeight > 0) this.lineEditor.ensureView();
    if (this.container.offsetHeight === 0) this.scheduleScroll(this.pendingScrollTop === null ? this.scrollTop : this.pendingScrollTop);
    else if (this.pendingScrollTop === null) this.lineEditor.refresh();
    else this.lineEditor.callAfterLayout(() => this.applyScroll());
  }

  /**
   * Scrolls to a position in pixels once the text can be measured.
   * @param {number} top
   */
  scheduleScroll(top) {
    this.pendingScrollTop = top;
    if (this.container.offsetHeight > 0) this.lineEditor.callAfterLayout(() => this.applyScroll());
  }

  /** If the text can be measured now, restores the scroll position and reveals the pending line. */
  applyScroll() {
    if (this.pendingScrollTop === null || this.container.offsetHeight === 0) return;
    this.lineEditor.scrollTo(this.pendingScrollTop);
    this.pendingScrollTop = null;
    if (this.pendingLine > 0) this.reveal(this.pendingLine);
    this.pendingLine = 0;
  }

  /**
   * Handles a key event. Tab indents after the user has typed or clicked in the editor. Before that, and after Escape, Tab moves the focus
   * as usual. Returns true if the key is handled.
   * @param {KeyboardEvent} event
   */
  handleKey({ key, shiftKey, ctrlKey, altKey, metaKey }) {
    if (key === "Tab") return !this.tabMovesFocus && !ctrlKey && !altKey && !metaKey && this.lineEditor.indent(shiftKey);
    if (key === "Escape") this.tabMovesFocus = true;
    else if (!MODIFIER_KEYS.includes(key)) this.tabMovesFocus = false;
    return false;
  }

  get text() {
    if (this.cachedText === null) this.cachedText = this.lineEditor.getValue();
    return this.cachedText;
  }

  /**
   * Shows a session's text. If the text has not changed since it was last shown, restores its undo history, caret and scroll position.
   * @param {string} sessionId the session's id
   * @param {string} text
   */
  open(sessionId, text) {
    const { lineEditor, storedTexts, sessionId: previousId } = this;
    const scrollTop = this.pendingScrollTop === null ? this.scrollTop : this.pendingScrollTop;
    const storedText = storedTexts.get(sessionId);
    storedTexts.delete(sessionId);
    const isUnchanged = storedText !== undefined && storedText.state.doc.toString() === text;
    const state = lineEditor.swapState(isUnchanged ? storedText.state : lineEditor.makeState(text));
    if (previousId) storedTexts.set(previousId, { state, scrollTop });
    this.pendingLine = 0;
    this.hasCaret = false;
    this.scheduleScroll(isUnchanged ? storedText.scrollTop : 0);
    this.sessionId = sessionId;
    this.cachedText = null;
    for (const oldestId of [...storedTexts.keys()].slice(0, -MAX_STORED_TEXTS)) storedTexts.delete(oldestId);
  }

  /**
   * Comments out the selected lines, or removes the comment marks if all these lines are comments. Blank lines stay unchanged.
   * @param {string} mark the character that begins a comment
   */
  toggleComment(mark) {
    const { lineEditor } = this;
    const [first, last] = [lineEditor.getCursor("from").line, lineEditor.getCursor("to").line];
    const lines = indices(last - first + 1).map((index) => lineEditor.getLine(first + index) || "");
    const endPosition = { line: last, ch: (lineEditor.getLine(last) || "").length };
    lineEditor.replaceRange(toggleComments(lines, mark).join("\n"), { line: first, ch: 0 }, endPosition);
    lineEditor.setSelection({ line: first, ch: 0 }, { line: last, ch: Infinity });
  }

  /**
   * Replaces the entire text as one undo step.
   * @param {string} text
   */
  replaceText(text) {
    this.lineEditor.setValue(text);
    this.hasCaret = false;
  }

  /** The caret's line, from 1, or 0 if the user has not placed the caret. */
  get caretLine() {
    return this.hasCaret ? this.lineEditor.getCursor().line + 1 : 0;
  }

  /**
   * Applies successive edits as one undo step.
   * @param {import("../../core/drawing/text_edits.js").TextEdit[]} edits
   */
  edit(edits) {
    this.lineEditor.edit(edits);
  }

  /**
   * Undoes or redoes one step. Returns false if there is none.
   * @param {"undo" | "redo"} direction
   */
  undoOrRedo(direction) {
    return this.lineEditor.undoOrRedo(direction);
  }

  /**
   * Selects complete lines, scrolls them into view and focuses the editor.
   * @param {{ from: number, to: number }} lines the first and last line, from 1
   */
  selectLines({ from, to }) {
    for (const line of [from, to]) unfold(this.lineEditor, line - 1);
    this.lineEditor.setSelection({ line: from - 1, ch: 0 }, { line: to - 1, ch: (this.lineEditor.getLine(to - 1) || "").length });
    this.lineEditor.focus();
  }

  /**
   * Scrolls a line into view and unfolds the folded range that contains it. Moves neither the caret nor the page. Does not scroll if the
   * line is visible.
   * @param {number} line from 1
   */
  reveal(line) {
    const { lineEditor } = this;
    if (this.pendingScrollTop !== null) {
      this.pendingLine = line;
      return;
    }
    unfold(lineEditor, line - 1);
    const { top, clientHeight } = lineEditor.getScrollInfo();
    const lineTop = lineEditor.heightAtLine(line - 1);
    const margin = lineEditor.view.defaultLineHeight * 2;
    if (lineTop - margin < top) lineEditor.scrollTo(Math.max(0, lineTop - margin));
    else if (lineTop + 2 * margin > top + clientHeight) lineEditor.scrollTo(lineTop + 2 * margin - clientHeight);
  }

  /**
   * Moves the caret to a position and focuses the editor.
   * @param {Position} position
   */
  goTo(position) {
    this.lineEditor.setCursor(position);
    this.lineEditor.focus();
    this.tabMovesFocus = false;
  }
}
