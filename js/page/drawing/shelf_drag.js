// Drags parts by mouse, pen or touch from the shelf onto the sheet, which is the area with the board's picture. A lamp or a buzzer is
// wired to the line on which it is dropped. A click adds a part at its default position. Shift+Enter adds a part and focuses it on the
// sheet, where arrow keys can move it.

import { element } from "../ui/dom.js";

/**
 * @typedef {import("../../core/drawing/drawing_actions.js").ShelfPart} ShelfPart
 * @typedef {{ clientX: number, clientY: number }} WindowPoint
 *
 * The part under the pressed pointer. `node` is its button, and `start` the point where the pointer went down. `isDragged` is true once the
 * pointer has moved far enough for a drag.
 * @typedef {{ part: ShelfPart, node: HTMLElement, start: WindowPoint, isDragged: boolean }} HeldPart
 *
 * The callbacks of the shelf.
 * @typedef {object} ShelfCalls
 * @property {(point: WindowPoint) => boolean} isOnSheet Returns true if a point of the window is on the sheet.
 * @property {(part: ShelfPart, point: WindowPoint) => void} addDropped Adds a part that was dropped on the sheet.
 * @property {(part: ShelfPart) => void} addAndFocus Adds a part and focuses it on the sheet.
 * @property {(isOver: boolean) => void} showDropTarget Shows whether a dragged part is over the sheet.
 */

/** The distance in pixels that the pointer must move to start a drag. */
const DRAG_DISTANCE = 6;

export class ShelfDrag {
  /** @param {ShelfCalls} calls */
  constructor(calls) {
    this.calls = calls;
    /** @type {HeldPart | null} */
    this.heldPart = null;
    /** True after a drag, until the click that follows the drag has been ignored. */
    this.wasDragged = false;
    /** The image of the dragged part, next to the pointer. */
    this.dragImage = element("div", { id: "shelf-ghost", hidden: true });
    document.body.append(this.dragImage);
    addEventListener("keydown", (event) => {
      if (event.key !== "Escape" || !this.heldPart || !this.heldPart.isDragged) return;
      event.preventDefault();
      this.release();
    }, true);
  }

  /**
   * @param {HTMLElement} node
   * @param {ShelfPart} part
   */
  listen(node, part) {
    // Browsers send a click after a drag, even if Escape has cancelled the drag.
    node.addEventListener("click", (event) => {
      if (this.wasDragged && event.detail > 0) event.stopImmediatePropagation();
      this.wasDragged = false;
    }, true);
    node.addEventListener("pointerdown", (event) => {
      this.wasDragged = false;
      if (event.button !== 0 || !event.isPrimary) return;
      this.heldPart = { part, node, start: event, isDragged: false };
      node.setPointerCapture(event.pointerId);
    });
    node.addEventListener("pointermove", (event) => this.handlePointerMove(event));
    node.addEventListener("pointerup", (event) => this.handlePointerUp(event));
    node.addEventListener("pointercancel", () => this.release());
    node.addEventListener("keydown", (event) => {
      if (event.key !== "Enter" || !event.shiftKey) return;
      event.preventDefault();
      this.calls.addAndFocus(part);
    });
  }

  /** @param {PointerEvent} event */
  handlePointerMove(event) {
    const { heldPart, dragImage } = this;
    if (!heldPart) return;
    const { clientX, clientY } = event;
    if (!heldPart.isDragged && Math.hypot(clientX - heldPart.start.clientX, clientY - heldPart.start.clientY) < DRAG_DISTANCE) return;
    if (!heldPart.isDragged) dragImage.textContent = heldPart.node.textContent;
    heldPart.isDragged = this.wasDragged = true;
    dragImage.hidden = false;
    dragImage.style.setProperty("left", `${clientX}px`);
    dragImage.style.setProperty("top", `${clientY}px`);
    this.calls.showDropTarget(this.calls.isOnSheet(event));
  }

  /** @param {PointerEvent} event */
  handlePointerUp(event) {
    const { heldPart } = this;
    this.release();
    if (!heldPart || !heldPart.isDragged) return;
    if (this.calls.isOnSheet(event)) this.calls.addDropped(heldPart.part, event);
  }

  release() {
    this.heldPart = null;
    this.dragImage.hidden = true;
    this.calls.showDropTarget(false);
  }
}
