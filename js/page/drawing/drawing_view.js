// The controls around the board's picture: the shelf of parts that the user can add, the fields of the selected part, and the message about
// the last action.

import { Cell, block, button, element, field, onClick } from "../ui/dom.js";
import { findBuzzer, lampColours } from "../../core/board/face_board.js";
import { createLampLabels } from "../../core/drawing/lamp_labels.js";
import { ShelfDrag } from "./shelf_drag.js";
import * as say from "../../words/drawing.js";

/**
 * @typedef {import("../../core/drawing/drawing_actions.js").DrawingAction} DrawingAction
 * @typedef {import("../../core/drawing/drawing_actions.js").ShelfPart} ShelfPart
 * @typedef {import("../../core/drawing/board_drawing.js").DrawingState} DrawingState
 * @typedef {import("../../core/drawing/selection_form.js").Field} Field
 * @typedef {import("../board/wiring_view.js").WiringView} WiringView
 * @typedef {import("../../core/board/wiring.js").Point} Point
 */

/**
 * The callbacks of the shelf, the buttons and the fields.
 * @typedef {object} DrawingViewCalls
 * @property {(action: DrawingAction) => void} performAction Applies an action to the board's text. If the bench rejects the new text, the
 *   old text stays.
 * @property {(direction: "undo" | "redo") => void} undoOrRedo Undoes or redoes the last edit.
 * @property {() => void} applyBoard Applies the board's text.
 * @property {(part: string) => void} showPartLines Shows the lines of a part in the board's text. The part is named as in the picture, for
 *   example `rom 1`.
 * @property {() => void} arrangeParts Moves all parts to their default positions.
 * @property {() => void} insertKeyScan Inserts a key scan routine into the source.
 * @property {(action: DrawingAction, point: Point | null) => void} dropPart Adds a part and focuses it. The part appears at `point` in
 *   the picture, or at its default position if `point` is null.
 */

/** The parts that consist of digits. The user chooses the number of digits before adding such a part. */
const PARTS_WITH_DIGIT_COUNT = new Set(["digit", "segments", "scanned"]);
/** The parts that the user can drop onto a line's pin or wire. The part is then wired to this line. */
const LINE_PARTS = new Set(["lamp", "buzzer"]);

export class DrawingView {
  /**
   * @param {WiringView} picture
   * @param {DrawingViewCalls} calls
   */
  constructor(picture, calls) {
    this.picture = picture;
    this.calls = calls;
    this.status = new Cell(block("drawing-status"));
    this.stateCell = new Cell(block("drawing-state"));
    /** @type {Map<ShelfPart, HTMLButtonElement>} */
    this.shelf = new Map();
    /** The data from which the picture was last drawn, as JSON, to detect changes. */
    this.lastDrawnData = "";
    /** @type {import("../../core/board/wiring.js").Positions} the positions of the parts that the user has moved */
    this.movedParts = new Map();
    /** @type {DrawingState | null} */
    this.lastState = null;
    /** The layout of the current fields as JSON, to detect changes. */
    this.fieldLayout = "";
    /** @type {(HTMLInputElement | HTMLSelectElement)[]} */
    this.fields = [];
    /** @type {WeakMap<HTMLElement, string>} the value that each field last showed */
    this.shownValues = new WeakMap();
    this.makeShelf();
    onClick(button("drawing-undo"), () => calls.undoOrRedo("undo"));
    onClick(button("drawing-redo"), () => calls.undoOrRedo("redo"));
    onClick(button("drawing-wire"), () => calls.applyBoard());
    onClick(button("drawing-tidy"), () => calls.arrangeParts());
  }

  makeShelf() {
    const { root } = this.picture;
    const drag = new ShelfDrag({
      isOnSheet: (point) => root.contains(elementAt(point)),
      addDropped: (part, point) => {
        const name = this.picture.nameAt(elementAt(point));
        const line = LINE_PARTS.has(part) && !name.includes(" ") ? name : "";
        this.calls.dropPart(this.makeAddAction(part, line), this.picture.toPicturePoint(point));
      },
      addAndFocus: (part) => this.calls.dropPart(this.makeAddAction(part), null),
      showDropTarget: (isOver) => root.classList.toggle("drop-here", isOver),
    });
    for (const [part, [word, title]] of /** @type {[ShelfPart, [string, string]][]} */ (Object.entries(say.SHELF))) {
      const node = element("button", { type: "button", id: `shelf-${part}`, title }, word);
      drag.listen(node, part);
      onClick(node, () => this.addPart(part));
      this.shelf.set(part, node);
    }
    const displays = block("shelf-displays");
    for (const [part, node] of this.shelf) {
      if (PARTS_WITH_DIGIT_COUNT.has(part)) displays.lastElementChild?.before(node);
      else block("shelf").append(node);
    }
    block("shelf").append(displays);
  }

  /** @param {ShelfPart} part */
  addPart(part) {
    const { lastState: state } = this;
    const lineButton = state && state.fields.buttons.find(({ action }) => action.kind === "add" && action.part === part);
    this.calls.performAction(lineButton ? lineButton.action : this.makeAddAction(part));
  }

  /**
   * @param {ShelfPart} part
   * @param {string} [line] the line to which the part is wired, or "" to use the next free line
   * @returns {DrawingAction}
   */
  makeAddAction(part, line = "") {
    if (PARTS_WITH_DIGIT_COUNT.has(part)) return { kind: "add", part, digits: Number(field("shelf-digits").value) };
    return { kind: "add", part, ...(line ? { line } : {}) };
  }

  /** @param {DrawingState} state */
  show(state) {
    this.lastState = state;
    this.status.set(state.lastMessage);
    this.showState(state);
    this.showPicture();
    this.showShelf(state);
    this.showFields(state);
  }

  /** @param {DrawingState} state */
  showState({ error, isWired }) {
    this.stateCell.set(error || (isWired ? "" : say.NOT_APPLIED));
    button("drawing-wire").classList.toggle("due", error === "" && !isWired);
  }

  /** Draws the board if it has changed or if a part has been dragged. */
  showPicture() {
    const { lastState: state, movedParts } = this;
    if (!state) return;
    const { board, face, isWired, selected, wireStart, ends } = state;
    const count = board.lamps.length;
    const names = createLampLabels(face, count);
    const appearance = { names, colours: lampColours(face, count), test: face.test, buzzer: findBuzzer(board, face) };
    const drawingData = JSON.stringify([board, appearance, isWired, [...movedParts]]);
    if (drawingData !== this.lastDrawnData) this.picture.draw(board, appearance, { moved: movedParts, isWired });
    this.lastDrawnData = drawingData;
    this.picture.showSelection(selected, wireStart, ends);
  }

  /** @param {DrawingState} state */
  showShelf({ shelf, error }) {
    for (const [part, node] of this.shelf) {
      const reason = error || shelf.get(part) || "";
      node.disabled = reason !== "";
      node.title = reason || say.SHELF[part][1];
    }
  }

  /**
   * Shows the fields of the selection. If the layout of the fields is unchanged, keeps their elements, so that typing is not interrupted.
   * @param {DrawingState} state
   */
  showFields({ fields: { title, part, fields, buttons }, error }) {
    const fieldLayout = JSON.stringify([title, part, fields.map(({ label, options }) => [label, options]), buttons, error !== ""]);
    if (fieldLayout !== this.fieldLayout) this.drawFields(title, part, fields, buttons, error !== "");
    this.fieldLayout = fieldLayout;
    fields.forEach(({ value }, index) => this.setValue(this.fields[index], value));
  }

  /**
   * Sets the value of a field. If the user is typing in the field, the typed text stays unless `value` has changed.
   * @param {HTMLInputElement | HTMLSelectElement} node
   * @param {string} value
   */
  setValue(node, value) {
    const isTyped = node instanceof HTMLInputElement && node === document.activeElement && this.shownValues.get(node) === value;
    if (!isTyped && node.value !== value) node.value = value;
    this.shownValues.set(node, value);
  }

  /**
   * Replaces the fields. If a field or button had the focus, focuses the new field or button with the same label.
   * @param {string} title
   * @param {string} part
   * @param {Field[]} fields
   * @param {import("../../core/drawing/selection_form.js").Button[]} buttons
   * @param {boolean} isDisabled
   */
  drawFields(title, part, fields, buttons, isDisabled) {
    const root = block("chosen");
    const focusedLabel = document.activeElement instanceof HTMLElement && root.contains(document.activeElement)
      ? document.activeElement.getAttribute("aria-label") : null;
    const head = element("b", {}, title);
    this.fields = fields.map((description, index) => this.makeFieldNode(description, index, isDisabled));
    const rows = this.fields.map((node, index) => element("label", {}, `${fields[index].label} `, node));
    const buttonNodes = buttons.map(({ label, action }) => (
      this.makeButtonNode(label, () => this.calls.performAction(action), isDisabled)));
    if (part === "keys") buttonNodes.push(this.makeButtonNode(say.INSERT_SCAN, () => this.calls.insertKeyScan(), isDisabled));
    if (part) buttonNodes.push(this.makeButtonNode(say.SHOW_IN_BOARD, () => this.calls.showPartLines(part), false));
    root.replaceChildren(head, ...buttonNodes, ...(buttonNodes.length > 0 ? [element("hr")] : []), ...rows);
    const nodes = [...root.querySelectorAll("input, select, button")];
    const focusTarget = focusedLabel && nodes.find((node) => node.getAttribute("aria-label") === focusedLabel);
    if (focusTarget instanceof HTMLElement) focusTarget.focus();
  }

  /**
   * @param {string} label
   * @param {() => void} action
   * @param {boolean} isDisabled
   */
  makeButtonNode(label, action, isDisabled) {
    const node = element("button", { "type": "button", disabled: isDisabled, "aria-label": label }, label);
    onClick(node, action);
    return node;
  }

  /**
   * @param {Field} description
   * @param {number} index the index of the field
   * @param {boolean} isDisabled
   */
  makeFieldNode({ label, options }, index, isDisabled) {
    const attributes = { "aria-label": label, "autocomplete": "off", disabled: isDisabled };
    const node = options
      ? element("select", attributes, ...options.map((option) => element("option", { value: option.value }, option.label)))
      : element("input", { ...attributes, size: 10, spellcheck: false });
    node.addEventListener("change", () => {
      const shownField = this.lastState && this.lastState.fields.fields[index];
      if (shownField && node.value !== shownField.value) this.calls.performAction(shownField.createAction(node.value));
    });
    return node;
  }
}

/** @param {{ clientX: number, clientY: number }} point */
function elementAt({ clientX, clientY }) {
  return document.elementFromPoint(clientX, clientY);
}
