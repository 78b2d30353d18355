// Mouse, touch and keyboard input on the board's picture. The user draws a wire from pin to pin, by dragging or by two clicks, and drags
// parts. Arrow keys move the focus between parts and between pins.

/**
 * @typedef {import("../board/wiring_view.js").WiringView} WiringView
 * @typedef {import("../../core/board/wiring.js").Point} Point
 *
 * The part or pin under the pressed pointer. `downPoint` is the point where the pointer went down. `startPosition` is the part's position
 * before the drag, and (0, 0) for a pin.
 * @typedef {{ name: string, isPart: boolean, downPoint: Point, startPosition: Point, isDragged: boolean }} HeldItem
 */

/**
 * The callbacks of the picture's input. Parts and pins are identified by their names in the picture.
 * @typedef {object} PictureInputCalls
 * @property {(name: string) => void} pressItem Handles a click on a part or a pin.
 * @property {(from: string, to: string) => void} drawWire Draws a wire that was dragged from one pin to another.
 * @property {(part: string, point: Point) => void} movePart Moves a part to a point in the picture's units.
 * @property {() => void} handleDrop Handles the end of a part's drag.
 * @property {(name: string) => void} deleteItem Deletes a part or a wire.
 * @property {() => void} cancelAction Cancels the wire in progress or the selection.
 * @property {(direction: "undo" | "redo") => void} undoOrRedo Undoes or redoes the last edit.
 */

/** The distance that the pointer must move to start a drag, in the picture's units. */
const DRAG_DISTANCE = 4;
/** The distance that an arrow key moves a part, in the picture's units. */
const ARROW_STEP = 12;
/** @type {Record<string, { x: number, y: number }>} */
const ARROW_DIRECTIONS = { ArrowLeft: { x: -1, y: 0 }, ArrowRight: { x: 1, y: 0 }, ArrowUp: { x: 0, y: -1 }, ArrowDown: { x: 0, y: 1 } };

export class PictureInput {
  /**
   * @param {WiringView} view
   * @param {PictureInputCalls} calls
   */
  constructor(view, calls) {
    this.view = view;
    this.calls = calls;
    /** @type {HeldItem | null} */
    this.heldItem = null;
    /** @type {Set<string>} the pins where the wire in progress can end */
    this.endPins = new Set();
    this.startPin = "";
    const { root } = view;
    root.addEventListener("pointerdown", (event) => this.handlePointerDown(event));
    root.addEventListener("pointermove", (event) => this.handlePointerMove(event));
    root.addEventListener("pointerup", (event) => this.handlePointerUp(event));
    root.addEventListener("pointercancel", () => this.handlePointerCancel());
    root.addEventListener("keydown", (event) => this.handleKeyDown(event));
    // A screen reader clicks without a pointer.
    root.addEventListener("click", (event) => event.detail === 0 && this.press(view.nameAt(/** @type {Element} */ (event.target))));
  }

  /**
   * @param {string} startPin
   * @param {Set<string>} endPins
   */
  setWire(startPin, endPins) {
    this.startPin = startPin;
    this.endPins = endPins;
  }

  /** @param {string} name */
  press(name) {
    if (name) this.calls.pressItem(name);
    else this.calls.cancelAction();
  }

  /** @param {PointerEvent} event */
  handlePointerDown(event) {
    if (event.button !== 0 || !event.isPrimary) return;
    const name = this.view.nameAt(/** @type {Element} */ (event.target));
    const part = this.view.parts.get(name);
    const startPosition = part || { x: 0, y: 0 };
    this.heldItem = { name, isPart: part !== undefined, downPoint: this.view.toPicturePoint(event), startPosition, isDragged: false };
    // Pointer capture lets the picture receive the events of a drag that leaves the picture.
    if (event.pointerType !== "touch") this.view.root.setPointerCapture(event.pointerId);
    if (name) this.view.focus(name);
  }

  /** @param {PointerEvent} event */
  handlePointerMove(event) {
    const { heldItem, view } = this;
    if (!heldItem) {
      if (this.startPin) view.drawNewWire(this.startPin, view.toPicturePoint(event));
      return;
    }
    const point = view.toPicturePoint(event);
    if (!heldItem.isDragged && Math.hypot(point.x - heldItem.downPoint.x, point.y - heldItem.downPoint.y) < DRAG_DISTANCE) return;
    // A touch that begins on a part scrolls the picture. A touch that begins on a pin draws a wire.
    if (heldItem.name === "" || (heldItem.isPart && event.pointerType === "touch")) return;
    if (!heldItem.isDragged && !heldItem.isPart && this.startPin !== heldItem.name) this.calls.pressItem(heldItem.name);
    heldItem.isDragged = true;
    // A change of the picture's size would move the part away from the pointer, so the picture keeps its size until the drop.
    view.isDragging = heldItem.isPart;
    const { name, startPosition: { x, y }, downPoint } = heldItem;
    if (heldItem.isPart) this.calls.movePart(name, { x: x + point.x - downPoint.x, y: y + point.y - downPoint.y });
    else view.drawNewWire(heldItem.name, point);
  }

  /** @param {PointerEvent} event */
  handlePointerUp(event) {
    const { heldItem } = this;
    this.release();
    if (!heldItem) return;
    if (!heldItem.isDragged) {
      this.press(heldItem.name);
      return;
    }
    if (heldItem.isPart) {
      this.calls.handleDrop();
      return;
    }
    const endPin = this.view.nameAt(document.elementFromPoint(event.clientX, event.clientY));
    if (this.endPins.has(endPin)) this.calls.drawWire(heldItem.name, endPin);
    else this.calls.cancelAction();
  }

  /** Ends a drag when the browser takes over the pointer, for example to scroll. A dragged part stays at its last position. */
  handlePointerCancel() {
    const { heldItem } = this;
    this.release();
    if (heldItem && heldItem.isPart && heldItem.isDragged) this.calls.handleDrop();
  }

  release() {
    this.heldItem = null;
    this.view.isDragging = false;
    this.view.drawNewWire("", null);
  }

  /** @param {KeyboardEvent} event */
  handleKeyDown(event) {
    if (!this.handleKey(event)) return;
    event.preventDefault();
    event.stopPropagation();
  }

  /**
   * Executes the action of a key. Returns true if the key has an action.
   * @param {KeyboardEvent} event
   */
  handleKey(event) {
    const { key } = event;
    const name = this.view.nameAt(/** @type {Element} */ (event.target));
    if (event.ctrlKey || event.metaKey) return this.handleControlKey(event);
    if (key in ARROW_DIRECTIONS) return this.handleArrow(event, name);
    if (key === "Enter" || key === " ") this.press(name);
    else if (key === "Escape") this.calls.cancelAction();
    else if (key === "Delete" || key === "Backspace") this.calls.deleteItem(name);
    else return false;
    return true;
  }

  /**
   * Executes the action of a key that is pressed with Control or Command. Returns true if the key has an action.
   * @param {KeyboardEvent} event
   */
  handleControlKey({ key, shiftKey }) {
    const isUndo = key.toLowerCase() === "z" && !shiftKey;
    const isRedo = key.toLowerCase() === "y" || (key.toLowerCase() === "z" && shiftKey);
    if (isUndo || isRedo) this.calls.undoOrRedo(isUndo ? "undo" : "redo");
    return isUndo || isRedo;
  }

  /**
   * Handles an arrow key: moves the focus to the next part or pin. While the user draws a wire, the focus moves only between the pins where
   * the wire can end, and wraps around. With Shift, moves the focused part instead. Returns true if the key has an action.
   * @param {KeyboardEvent} event
   * @param {string} name the name of the focused part or pin
   */
  handleArrow({ key, shiftKey }, name) {
    const { view } = this;
    const { x, y } = ARROW_DIRECTIONS[key];
    const part = view.parts.get(name);
    if (shiftKey && part) {
      this.calls.movePart(name, { x: part.x + ARROW_STEP * x, y: part.y + ARROW_STEP * y });
      this.calls.handleDrop();
    }
    if (shiftKey) return part !== undefined;
    /** @type {(item: string) => boolean} */
    const canReceiveFocus = (item) => (this.startPin ? this.endPins.has(item) : x === 0 || view.parts.has(item));
    const focusableItems = [...view.items.keys()].filter((item) => item === name || canReceiveFocus(item));
    const count = focusableItems.length;
    const targetIndex = focusableItems.indexOf(name) + x + y;
    const nextItem = focusableItems[this.startPin ? (targetIndex + count) % count : targetIndex];
    if (nextItem) view.focus(nextItem);
    return true;
  }
}
