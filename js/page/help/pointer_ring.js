// A ring around the target of a tour step. The ring scrolls its target into view, and follows the target when the target moves.

import { element } from "../ui/dom.js";

/** The interval in milliseconds at which the ring's position is updated. */
const UPDATE_INTERVAL_MS = 200;
/** The distance in pixels between the ring and its target. */
const GAP = 4;

export class PointerRing {
  constructor() {
    this.node = element("div", { "id": "tour-ring", "aria-hidden": "true", "hidden": true });
    document.body.append(this.node);
    /** @type {() => Element | null} */
    this.target = () => null;
    /** @type {Element | null} the target that was last scrolled into view */
    this.scrolledTarget = null;
    this.timer = 0;
  }

  /** @param {() => Element | null} target returns the element to surround */
  pointAt(target) {
    this.target = target;
    this.scrolledTarget = null;
    clearInterval(this.timer);
    this.timer = window.setInterval(() => this.updatePosition(), UPDATE_INTERVAL_MS);
    this.updatePosition();
  }

  hide() {
    clearInterval(this.timer);
    this.node.hidden = true;
  }

  updatePosition() {
    const target = this.target();
    const isVisible = target !== null && target.getClientRects().length > 0 && document.querySelector("dialog[open]") === null;
    if (this.node.hidden === isVisible) this.node.hidden = !isVisible;
    if (!target || !isVisible) return;
    if (this.scrolledTarget !== target) target.scrollIntoView({ block: "nearest", inline: "nearest" });
    this.scrolledTarget = target;
    const { left, top, width, height } = target.getBoundingClientRect();
    const { style } = this.node;
    style.setProperty("left", `${left - GAP}px`);
    style.setProperty("top", `${top - GAP}px`);
    style.setProperty("width", `${width + 2 * GAP}px`);
    style.setProperty("height", `${height + 2 * GAP}px`);
  }
}
