// A line-based text editor: the page's interface to CodeMirror 6. A position is a line and an offset in that line, both from 0. Each text
// has its own state with its undo history, caret and marks.

import { defaultKeymap, history, historyKeymap, indentLess, insertTab, isolateHistory, redo, redoDepth, undo, undoDepth }
  from "@codemirror/commands";
import { autocompletion, startCompletion } from "@codemirror/autocomplete";
import { indentUnit } from "@codemirror/language";
import { ChangeSet, Compartment, EditorState, Prec, Transaction } from "@codemirror/state";
import { EditorView, dropCursor, highlightSpecialChars, keymap, lineNumbers } from "@codemirror/view";
import { makeLineColours } from "./line_colours.js";
import { makeElementLayer, makeElementBelow, makeGutterLayer, makeLayerGutter, makeMarkLayer, makeTextLayer, makeTextMark, findLineStyle }
  from "./line_layers.js";
import { insertRulesIntoSheet } from "./style_rules.js";
import { findDescendant } from "../ui/dom.js";

/**
 * @typedef {{ line: number, ch: number }} Position
 * @typedef {import("@codemirror/state").Extension} Extension
 * @typedef {import("../../core/debug/breakpoints.js").Edit} Edit
 * @typedef {import("../../core/text/completion.js").Completion} Completion
 * @typedef {import("./line_layers.js").Layer} Layer
 * @typedef {Record<string, (editor: LineEditor) => void>} KeyMap actions by key name, for example `Shift-Ctrl-[`
 *
 * The options of an editor. `label` and `description` are for screen readers. `gutters` are the names of its gutters. The gutter "numbers"
 * shows line numbers. `indent` is the indentation of a new line, by default that of the previous line. `keys` are additional key bindings,
 * and `extensions` are further CodeMirror extensions. `isInFront` returns true if no tab hides the editor.
 * @typedef {{ container: HTMLElement, label: string, description: string, colours: import("./line_colours.js").Colours, gutters: string[],
 *   indent?: string, keys: KeyMap, extensions: Extension[], isInFront: () => boolean, calls: LineEditorCalls }} EditorOptions
 */

/**
 * The callbacks of the line editor.
 * @typedef {object} LineEditorCalls
 * @property {(edits: Edit[]) => void} handleEdits Handles edits of the text, in the order in which they apply.
 * @property {() => void} handleCaretMove Handles a caret move.
 * @property {(line: number) => void} handleGutterClick Handles a click on a gutter. Lines count from 0.
 * @property {(line: number, event: Event) => void} handleGutterMenu Handles a right click on a gutter. Lines count from 0.
 * @property {(size: number) => boolean} acceptsSize Returns true if the editor accepts a paste or a drop after which the text has `size`
 *   characters.
 * @property {(position: Position) => Completion} complete Returns the completions for the word at a position.
 */

const TAB_WIDTH = 8;
const HISTORY_OPTIONS = { minDepth: 1000, newGroupDelay: 1250 };
/** The user events that can insert long text. Such an event is rejected if the resulting text would be too long. */
const LONG_TEXT_EVENTS = ["input.paste", "input.drop"];

insertRulesIntoSheet();

/**
 * @param {import("@codemirror/state").Text} doc
 * @param {number} offset
 * @returns {Position}
 */
function offsetToPosition(doc, offset) {
  const line = doc.lineAt(offset);
  return { line: line.number - 1, ch: offset - line.from };
}

/**
 * Returns the edits of a transaction, from the end of the text to its beginning. In this order, their positions in the old text stay valid.
 * @param {Transaction} transaction
 */
function editsOfTransaction(transaction) {
  const { startState: { doc } } = transaction;
  const origin = transaction.annotation(Transaction.userEvent);
  /** @type {Edit[]} */
  const edits = [];
  transaction.changes.iterChanges((from, to, _from, _to, inserted) => {
    const removed = doc.slice(from, to).toJSON();
    const replacesAll = from === 0 && to === doc.length;
    const range = { from: offsetToPosition(doc, from), to: offsetToPosition(doc, to) };
    edits.unshift({ ...range, text: inserted.toJSON(), removed, origin, replacesAll });
  });
  return edits;
}

/**
 * Converts a key name to CodeMirror's form, in which letters are in lower case.
 * @param {string} name
 */
function toCodeMirrorKey(name) {
  return name.replace(/-([A-Z])$/, (_, letter) => `-${letter.toLowerCase()}`);
}

export class LineEditor {
  /** @param {EditorOptions} options */
  constructor(options) {
    this.calls = options.calls;
    this.container = options.container;
    this.isInFront = options.isInFront;
    this.lineWrapping = new Compartment();
    this.wraps = false;
    /** @type {Map<string, Layer>} the layers of marks, by gutter */
    this.marks = new Map(options.gutters.filter((name) => name !== "numbers").map((name) => [name, makeMarkLayer()]));
    this.layers = { next: makeTextLayer(), nextNumber: makeGutterLayer(), lacking: makeGutterLayer(), errors: makeTextLayer(),
      values: makeTextLayer(), below: makeElementLayer() };
    /** @type {HTMLElement | null} the element below a line, if there is one */
    this.elementBelow = null;
    /** @type {(() => void)[]} listeners that are called after each edit */
    this.editListeners = [];
    /** @type {(() => void)[]} listeners that are called when the text scrolls */
    this.scrollListeners = [];
    this.extensions = this.makeExtensions(options);
    /** @type {EditorView | null} CodeMirror's view; null until it is needed, because creating a view takes much longer than a state */
    this.createdView = null;
    /** The state while there is no view. */
    this.stateWithoutView = this.makeState("");
  }

  /** CodeMirror's view. The first use creates it. */
  get view() {
    if (this.createdView) return this.createdView;
    const view = new EditorView({ parent: this.container, state: this.stateWithoutView });
    this.createdView = view;
    for (const action of this.scrollListeners) view.scrollDOM.addEventListener("scroll", action);
    // Scripts outside the page, such as tests, find the editor through its element.
    Object.assign(view.dom, { lineEditor: this });
    return view;
  }

  /** Creates the view if there is none. */
  ensureView() {
    return this.view;
  }

  /**
   * Applies a change to the view, or only to the state if there is no view yet.
   * @param {import("@codemirror/state").TransactionSpec} spec
   */
  dispatch(spec) {
    if (this.createdView) {
      this.createdView.dispatch(spec);
      return;
    }
    const transaction = this.stateWithoutView.update(spec);
    const { docChanged, selection, state } = transaction;
    this.stateWithoutView = state;
    this.handleUpdate({ docChanged, selectionSet: selection !== undefined, transactions: [transaction] });
  }

  /**
   * @param {EditorOptions} options
   * @returns {Extension[]}
   */
  makeExtensions({ label, description, colours, gutters, indent, keys, extensions }) {
    const bindings = Object.entries(keys).map(([key, action]) => ({ key: toCodeMirrorKey(key), run: () => {
      action(this);
      return true;
    } }));
    return [
      Prec.high(keymap.of([...bindings, { key: "Enter", run: () => this.breakLine(indent) }])),
      keymap.of([...historyKeymap, ...defaultKeymap]),
      history(HISTORY_OPTIONS),
      EditorState.tabSize.of(TAB_WIDTH),
      indentUnit.of("\t"),
      highlightSpecialChars(),
      dropCursor(),
      makeLineColours(colours),
      ...gutters.map((name) => this.makeGutter(name)),
      ...extensions,
      ...[...this.marks.values(), ...Object.values(this.layers)].map(({ field }) => field),
      autocompletion({ override: [(context) => this.makeCompletionResult(context)], activateOnTyping: false, icons: false,
        interactionDelay: 0 }),
      EditorView.contentAttributes.of({ "aria-label": label, "aria-description": description }),
      EditorState.transactionFilter.of((transaction) => (this.acceptsTransaction(transaction) ? transaction : [])),
      EditorView.updateListener.of((update) => this.handleUpdate(update)),
    ];
  }

  /** @param {string} name */
  makeGutter(name) {
    /** @type {(view: EditorView, block: { from: number }) => number} */
    const lineAtBlock = ({ state }, { from }) => state.doc.lineAt(from).number - 1;
    const domEventHandlers = {
      click: (/** @type {EditorView} */ view, /** @type {{ from: number }} */ block) => {
        this.calls.handleGutterClick(lineAtBlock(view, block));
        return true;
      },
      contextmenu: (/** @type {EditorView} */ view, /** @type {{ from: number }} */ block, /** @type {Event} */ event) => {
        this.calls.handleGutterMenu(lineAtBlock(view, block), event);
        return false;
      },
    };
    const layer = this.marks.get(name);
    return layer ? makeLayerGutter(name, layer, { domEventHandlers }) : lineNumbers({ domEventHandlers });
  }

  /**
   * Returns a new editor state for a text, with an empty undo history.
   * @param {string} text
   */
  makeState(text) {
    const wrapping = this.wraps ? EditorView.lineWrapping : [];
    return EditorState.create({ doc: text, extensions: [this.extensions, this.lineWrapping.of(wrapping)] });
  }

  get state() {
    return this.createdView ? this.createdView.state : this.stateWithoutView;
  }

  get doc() {
    return this.state.doc;
  }

  /** @param {Pick<import("@codemirror/view").ViewUpdate, "docChanged" | "selectionSet" | "transactions">} update */
  handleUpdate({ docChanged, selectionSet, transactions }) {
    if (docChanged) {
      this.calls.handleEdits(transactions.flatMap(editsOfTransaction));
      for (const action of this.editListeners) action();
    }
    if (docChanged || selectionSet) this.calls.handleCaretMove();
  }

  /**
   * Returns false if pasted or dropped text would make the editor's text too long.
   * @param {Transaction} transaction
   */
  acceptsTransaction(transaction) {
    const isPasteOrDrop = transaction.docChanged && LONG_TEXT_EVENTS.some((event) => transaction.isUserEvent(event));
    return !isPasteOrDrop || this.calls.acceptsSize(transaction.newDoc.length);
  }

  /**
   * Starts a new line. Returns true, because the key is then handled.
   * @param {string} [indent] the indentation of the new line, by default that of the previous line
   */
  breakLine(indent) {
    const { from, to } = this.state.selection.main;
    const previousLine = this.doc.lineAt(from);
    const leadingBlanks = /^[ \t]*/.exec(previousLine.text.slice(0, from - previousLine.from)) || [""];
    const trailingBlanks = /^[ \t]*/.exec(this.doc.sliceString(to, this.doc.lineAt(to).to)) || [""];
    const insert = `\n${indent === undefined ? leadingBlanks[0] : indent}`;
    this.view.dispatch({ changes: { from, to: to + trailingBlanks[0].length, insert }, selection: { anchor: from + insert.length },
      scrollIntoView: true, userEvent: "input" });
    return true;
  }

  /**
   * Indents or unindents the selected lines. Without a selection, inserts a tab or unindents the caret's line. Returns true if the key is
   * handled.
   * @param {boolean} shouldUnindent
   */
  indent(shouldUnindent) {
    return (shouldUnindent ? indentLess : insertTab)(this.view);
  }

  /** @param {import("@codemirror/autocomplete").CompletionContext} context */
  makeCompletionResult({ pos }) {
    const { line, ch } = offsetToPosition(this.doc, pos);
    const { from, to, list } = this.calls.complete({ line, ch });
    if (list.length === 0) return null;
    const options = list.map(({ text, description }) => {
      const [first] = text.split("\n");
      const gap = description && !description.startsWith(" ") ? "   " : "";
      return { label: text, displayLabel: `${first}${gap}${description}`, apply: text };
    });
    return { from: pos - ch + from, to: pos - ch + to, options, filter: false };
  }

  /** Shows the completions for the word at the caret. */
  complete() {
    startCompletion(this.view);
  }

  getValue() {
    return this.doc.toString();
  }

  /**
   * Replaces the entire text, as one undo step.
   * @param {string} text
   */
  setValue(text) {
    this.edit([{ from: 0, to: this.doc.length, insert: text }]);
  }

  /**
   * Returns the text of a line, or undefined if the line does not exist.
   * @param {number} line from 0
   */
  getLine(line) {
    return line >= 0 && line < this.doc.lines ? this.doc.line(line + 1).text : undefined;
  }

  lineCount() {
    return this.doc.lines;
  }

  lastLine() {
    return this.doc.lines - 1;
  }

  /**
   * Returns the offset of a position in the text. A position outside the text is clamped.
   * @param {Position} position
   */
  offset({ line, ch }) {
    const { from, to } = this.doc.line(Math.min(Math.max(line, 0), this.lastLine()) + 1);
    return line > this.lastLine() ? to : Math.min(from + Math.max(0, ch), to);
  }

  /** @param {number} offset */
  position(offset) {
    return offsetToPosition(this.doc, Math.min(Math.max(0, offset), this.doc.length));
  }

  /** @param {"head" | "from" | "to"} endName the end of the selection to return */
  getCursor(endName = "head") {
    return this.position(this.state.selection.main[endName]);
  }

  /** The selection as offsets in the text. */
  get selectedRange() {
    const { from, to } = this.state.selection.main;
    return { from, to };
  }

  getSelection() {
    const { from, to } = this.state.selection.main;
    return this.state.sliceDoc(from, to);
  }

  /**
   * @param {Position} anchor
   * @param {Position} head
   */
  setSelection(anchor, head = anchor) {
    this.view.dispatch({ selection: { anchor: this.offset(anchor), head: this.offset(head) }, scrollIntoView: true, userEvent: "select" });
  }

  /** @param {Position} position the new position of the caret */
  setCursor(position) {
    this.setSelection(position);
  }

  /**
   * Replaces the selection with text and puts the caret after it.
   * @param {string} text
   * @param {string} [eventName] the name of the user event; if present, the undo step can include text that the user typed before
   */
  replaceSelection(text, eventName) {
    const { from, to } = this.state.selection.main;
    this.view.dispatch({ changes: { from, to, insert: text }, selection: { anchor: from + text.length }, scrollIntoView: true,
      ...(eventName ? { userEvent: eventName } : { annotations: isolateHistory.of("full") }) });
  }

  /**
   * @param {string} text the text that replaces the range between two positions
   * @param {Position} from
   * @param {Position} [to]
   */
  replaceRange(text, from, to = from) {
    this.edit([{ from: this.offset(from), to: this.offset(to), insert: text }]);
  }

  /**
   * Applies successive edits as one undo step. The offsets of each edit refer to the text after the previous edits.
   * @param {import("../../core/drawing/text_edits.js").TextEdit[]} edits
   */
  edit(edits) {
    const changes = edits.reduce((composed, edit) => composed.compose(ChangeSet.of(edit, composed.newLength, this.state.lineBreak)),
      ChangeSet.empty(this.doc.length));
    this.dispatch({ changes, annotations: isolateHistory.of("full") });
  }

  /**
   * Undoes or redoes one step. Returns false if there is none.
   * @param {"undo" | "redo"} direction
   */
  undoOrRedo(direction) {
    const [depth, action] = direction === "undo" ? [undoDepth, undo] : [redoDepth, redo];
    return depth(this.state) > 0 && action(this.view);
  }

  undo() {
    this.undoOrRedo("undo");
  }

  /**
   * Replaces the marks in a gutter.
   * @param {string} gutter
   * @param {import("./line_layers.js").GutterMark[]} marks the marks in line order
   */
  showMarks(gutter, marks) {
    const layer = this.marks.get(gutter);
    if (layer) layer.show(this, marks.map((mark) => makeTextMark(gutter, mark).range(this.doc.line(mark.line + 1).from)));
  }

  /**
   * Returns the numbers, from 0, of the lines that have a mark in a gutter.
   * @param {string} gutter
   */
  findMarkedLines(gutter) {
    /** @type {number[]} */
    const lines = [];
    const layer = this.marks.get(gutter);
    if (layer) this.state.field(layer.field).between(0, this.doc.length, (from) => void lines.push(this.position(from).line));
    return lines;
  }

  /**
   * Applies a style to the gutters of lines. The style "next" also applies to the text of the lines.
   * @param {"next" | "lacking"} name
   * @param {number[]} lines line numbers from 0, in ascending order
   */
  showLineStyle(name, lines) {
    const style = findLineStyle(name);
    const lineStarts = lines.map((line) => this.doc.line(line + 1).from);
    this.layers[name === "next" ? "nextNumber" : "lacking"].show(this, lineStarts.map((from) => style.gutters.range(from)));
    if (name === "next") this.layers.next.show(this, lineStarts.map((from) => style.line.range(from)));
  }

  /** @param {import("@codemirror/state").Range<any>[]} ranges the underlined ranges */
  showErrors(ranges) {
    this.layers.errors.show(this, ranges);
  }

  /** @param {import("@codemirror/state").Range<any>[]} ranges the text to show after lines */
  showValues(ranges) {
    this.layers.values.show(this, ranges);
  }

  /**
   * Shows an element below a line. Removes the previous element.
   * @param {number} line from 0
   * @param {HTMLElement | null} node null to show no element
   */
  showElementBelow(line, node) {
    this.elementBelow = node;
    this.fitElementBelow();
    this.layers.below.show(this, node ? [makeElementBelow(node).range(this.offset({ line, ch: Infinity }))] : []);
  }

  /** Limits the width of the element below a line to the visible part of the text. */
  fitElementBelow() {
    if (!this.elementBelow) return;
    const guttersWidth = findDescendant(this.view.dom, ".cm-gutters", HTMLElement).offsetWidth;
    this.elementBelow.style.setProperty("left", `${guttersWidth}px`);
    this.elementBelow.style.setProperty("max-width", `${this.view.scrollDOM.clientWidth - guttersWidth}px`);
  }

  focus() {
    this.view.focus();
  }

  getInputField() {
    return this.view.contentDOM;
  }

  /**
   * Returns the text position nearest to a point of the window.
   * @param {{ left: number, top: number }} point
   */
  positionAt({ left, top }) {
    return this.position(this.view.posAtCoords({ x: left, y: top }, false));
  }

  getScrollInfo() {
    const { scrollTop, scrollWidth, clientWidth, clientHeight } = this.view.scrollDOM;
    return { top: scrollTop, width: scrollWidth, clientWidth, clientHeight };
  }

  /** @param {number} top the scroll position in pixels */
  scrollTo(top) {
    this.view.scrollDOM.scrollTop = top;
  }

  /** @param {() => void} action */
  onScroll(action) {
    this.scrollListeners.push(action);
    if (this.createdView) this.createdView.scrollDOM.addEventListener("scroll", action);
  }

  /** @param {() => void} action a listener that is called after each edit */
  onEdit(action) {
    this.editListeners.push(action);
  }

  /**
   * Returns the distance in pixels between the top of the text and a line.
   * @param {number} line from 0
   */
  heightAtLine(line) {
    return this.view.lineBlockAt(this.offset({ line, ch: 0 })).top;
  }

  /**
   * Scrolls a position into view, with a margin in pixels above and below.
   * @param {Position} position
   * @param {number} margin
   */
  scrollIntoView(position, margin) {
    this.view.dispatch({ effects: EditorView.scrollIntoView(this.offset(position), { yMargin: margin }) });
  }

  /** @param {boolean} wraps true if long lines wrap */
  setWrapping(wraps) {
    if (wraps === this.wraps) return;
    this.wraps = wraps;
    this.dispatch({ effects: this.lineWrapping.reconfigure(wraps ? EditorView.lineWrapping : []) });
  }

  /** Measures the layout again. Called after elements around the text have changed size. */
  refresh() {
    if (!this.createdView) return;
    this.fitElementBelow();
    this.createdView.requestMeasure();
  }

  /** @param {() => void} action called after CodeMirror's next layout measurement, which can change the scroll position */
  callAfterLayout(action) {
    this.view.requestMeasure({ read: () => null, write: () => queueMicrotask(action) });
  }

  /**
   * Returns the state with line wrapping as in this editor.
   * @param {EditorState} state
   */
  withWrapping(state) {
    const wrapping = this.wraps ? EditorView.lineWrapping : [];
    const hasSameWrapping = (this.lineWrapping.get(state) === EditorView.lineWrapping) === this.wraps;
    return hasSameWrapping ? state : state.update({ effects: this.lineWrapping.reconfigure(wrapping) }).state;
  }

  /**
   * Shows another editor state. Returns the previous state.
   * @param {EditorState} state
   */
  swapState(state) {
    const previousState = this.state;
    if (!this.createdView) {
      this.stateWithoutView = this.withWrapping(state);
      if (this.isInFront()) this.ensureView();
      return previousState;
    }
    // CodeMirror measures line heights, and would otherwise change the scroll position to keep the same line in place.
    this.scrollTo(0);
    this.createdView.setState(this.withWrapping(state));
    return previousState;
  }
}
