// Messages near the user's last action: at a cell, a line or a click. The messages disappear at the next key press or click.

import { element } from "./dom.js";

/** The time in milliseconds after a click during which messages appear at the position of the click. */
const CLICK_ANCHOR_MS = 3000;
/** The distance in pixels between a message and the element above it, and between a message and the edges of the window. */
const GAP = 4;

/**
 * Moves an element below a point, but keeps it within the width of the window.
 * @param {HTMLElement} node
 * @param {{ left: number, bottom: number }} point window coordinates
 * @param {number} gap the distance in pixels between the point and the element
 */
export function placeBelow(node, { left, bottom }, gap) {
  const maxLeft = document.documentElement.clientWidth - node.offsetWidth - GAP;
  node.style.setProperty("left", `${Math.max(GAP, Math.min(left, maxLeft)) + scrollX}px`);
  node.style.setProperty("top", `${bottom + gap + scrollY}px`);
}

export class PopupMessage {
  constructor() {
    this.node = element("p", { className: "popup-message", hidden: true });
    this.node.setAttribute("role", "alert");
    document.body.append(this.node);
    this.lastClick = { left: 0, bottom: 0, time: -CLICK_ANCHOR_MS };
    addEventListener("pointerdown", (event) => {
      this.lastClick = { left: event.clientX, bottom: event.clientY, time: performance.now() };
      this.hide();
    }, true);
    addEventListener("keydown", () => this.hide(), true);
  }

  /**
   * @param {string} message
   * @param {HTMLElement} [anchor] the element above the message; by default, the position of the last click, or the focused element
   */
  show(message, anchor) {
    this.node.textContent = message;
    this.node.hidden = false;
    placeBelow(this.node, this.findAnchorBox(anchor), GAP);
  }

  /** @param {HTMLElement} [anchor] */
  findAnchorBox(anchor) {
    const { left, bottom, time } = this.lastClick;
    if (!anchor && performance.now() - time < CLICK_ANCHOR_MS) return { left, bottom: bottom + GAP };
    return (anchor || document.activeElement || document.body).getBoundingClientRect();
  }

  hide() {
    if (!this.node.hidden) this.node.hidden = true;
  }
}
