// Touch, mouse and wheel input on the waves. A click places the cursor. A drag pans the waves, moves the cursor, or moves a row whose
// name is dragged. Two fingers or the wheel zoom.

/**
 * @typedef {{ x: number, y: number }} Point
 */

/**
 * The callbacks of the pointer input. Points are in pixels from the top left corner of the waves.
 * @typedef {object} PointerCalls
 * @property {(point: Point, isOtherCursor: boolean) => void} click Moves the active cursor to a point, or the other cursor if
 *   `isOtherCursor` is true (a click with Shift).
 * @property {(point: Point) => boolean} holdsCursor Returns true if a drag from this point moves the cursor.
 * @property {(point: Point) => void} drag Moves the dragged cursor to a point.
 * @property {(point: Point) => boolean} isOnRowName Returns true if a point is on the row names.
 * @property {(from: Point, to: Point) => void} dragRow Moves the row whose name is at `from` to the position `to`.
 * @property {(point: Point | null) => void} hover Called when the pointer hovers at a point. `point` is null if the pointer has left the
 *   waves or is pressed.
 * @property {(pixels: number) => void} pan Pans by a number of pixels; positive numbers move to later moments.
 * @property {(factor: number, x: number) => void} zoom Multiplies the number of pixels per cycle by `factor`. The moment at the x
 *   coordinate `x` stays where it is.
 */

/** The maximum distance in pixels that the pointer can move during a click. A longer movement is a drag. */
const CLICK_DISTANCE = 5;
/** The zoom factor of one wheel step. */
const WHEEL_FACTOR = 1.25;

export class WavePointers {
  /**
   * @param {HTMLElement} node
   * @param {PointerCalls} calls
   */
  constructor(node, calls) {
    this.node = node;
    this.calls = calls;
    /** @type {Map<number, Point>} the pressed pointers, by pointer id */
    this.pressedPointers = new Map();
    this.startPoint = { x: 0, y: 0 };
    this.hasMoved = false;
    this.holdsCursor = false;
    this.holdsRow = false;
    node.addEventListener("pointerleave", () => calls.hover(null));
    node.addEventListener("pointerdown", (event) => this.handlePointerDown(event));
    node.addEventListener("pointermove", (event) => this.handlePointerMove(event));
    node.addEventListener("pointerup", (event) => this.handlePointerUp(event));
    node.addEventListener("pointercancel", (event) => this.pressedPointers.delete(event.pointerId));
    node.addEventListener("wheel", (event) => this.handleWheel(event), { passive: false });
  }

  /**
   * @param {MouseEvent} event
   * @returns {Point}
   */
  pointOf(event) {
    const box = this.node.getBoundingClientRect();
    return { x: event.clientX - box.left, y: event.clientY - box.top };
  }

  /** @param {PointerEvent} event */
  handlePointerDown(event) {
    if (event.button !== 0) return;
    const point = this.pointOf(event);
    this.node.setPointerCapture(event.pointerId);
    this.pressedPointers.set(event.pointerId, point);
    this.hasMoved = this.pressedPointers.size > 1;
    this.startPoint = point;
    this.holdsCursor = this.pressedPointers.size === 1 && this.calls.holdsCursor(point);
    this.holdsRow = this.pressedPointers.size === 1 && this.calls.isOnRowName(point);
    this.calls.hover(null);
  }

  /** @param {PointerEvent} event */
  handlePointerMove(event) {
    const previousPoint = this.pressedPointers.get(event.pointerId);
    const point = this.pointOf(event);
    if (!previousPoint) {
      if (event.pointerType === "mouse") this.calls.hover(point);
      return;
    }
    if (Math.abs(point.x - this.startPoint.x) + Math.abs(point.y - this.startPoint.y) > CLICK_DISTANCE) this.hasMoved = true;
    if (!this.hasMoved) return;
    if (this.pressedPointers.size === 2) this.pinch(event.pointerId, previousPoint, point);
    else if (this.holdsCursor) this.calls.drag(point);
    else if (this.holdsRow) this.calls.dragRow(previousPoint, point);
    else this.calls.pan(previousPoint.x - point.x);
    this.pressedPointers.set(event.pointerId, point);
  }

  /**
   * @param {number} id
   * @param {Point} previousPoint
   * @param {Point} point
   */
  pinch(id, previousPoint, point) {
    const [otherPoint] = [...this.pressedPointers].filter(([pointerId]) => pointerId !== id).map(([, position]) => position);
    const oldDistance = Math.max(20, Math.abs(previousPoint.x - otherPoint.x));
    const newDistance = Math.max(20, Math.abs(point.x - otherPoint.x));
    this.calls.pan((previousPoint.x - point.x) / 2);
    this.calls.zoom(newDistance / oldDistance, (point.x + otherPoint.x) / 2);
  }

  /** @param {PointerEvent} event */
  handlePointerUp(event) {
    if (!this.pressedPointers.delete(event.pointerId)) return;
    if (!this.hasMoved) this.calls.click(this.pointOf(event), event.shiftKey);
  }

  /**
   * Handles a wheel event. Vertical scrolling zooms at the pointer, or scrolls the rows if the pointer is on their names. Horizontal
   * scrolling, or scrolling with Shift, pans.
   * @param {WheelEvent} event
   */
  handleWheel(event) {
    const { deltaX, deltaY, shiftKey, ctrlKey, metaKey } = event;
    const point = this.pointOf(event);
    const isSideways = shiftKey || Math.abs(deltaX) > Math.abs(deltaY);
    if (!ctrlKey && !metaKey && !isSideways && this.calls.isOnRowName(point)) return;
    event.preventDefault();
    if (isSideways) this.calls.pan(deltaX || deltaY);
    else if (deltaY !== 0) this.calls.zoom(deltaY < 0 ? WHEEL_FACTOR : 1 / WHEEL_FACTOR, point.x);
  }
}
