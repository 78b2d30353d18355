// Tooltips with a button's action and key. A tooltip opens when the pointer rests on the button, when the button gets the keyboard focus,
// or on a long touch. Browsers show a `title` only at the pointer, so a button with a `title` also gets a tooltip for the keyboard and for
// touch.

import { element } from "./dom.js";

/** @typedef {{ text: string, key: string }} Tip the contents of a tooltip: its text, and a key binding, or "" if there is none */

/** The time in milliseconds for which the pointer must rest before the tooltip opens. */
const HOVER_DELAY_MS = 500;
/** The time in milliseconds for which a touch must last before the tooltip opens. */
const LONG_TOUCH_MS = 500;
/** The time in milliseconds for which the tooltip stays after the touch has ended. */
const TOUCH_TIP_MS = 2500;
/** The distance in pixels between a tooltip and its element, and between a tooltip and the edges of the window. */
const GAP = 6;

export class Tooltips {
  constructor() {
    this.node = element("p", { id: "tooltip", role: "tooltip", hidden: true });
    document.body.append(this.node);
    /** @type {Map<Element, () => Tip>} */
    this.tips = new Map();
    this.timer = 0;
    /** @type {HTMLElement | null} the element whose tooltip is visible */
    this.describedElement = null;
    /** True if a touch has opened the tooltip. The click at the end of this touch is ignored. */
    this.isOpenedByTouch = false;
    addEventListener("pointerover", (event) => this.handlePointerOver(event));
    addEventListener("pointerout", (event) => event.pointerType !== "touch" && this.hide());
    addEventListener("pointerdown", (event) => this.handlePointerDown(event), true);
    addEventListener("pointerup", (event) => event.pointerType === "touch" && this.handleTouchEnd(), true);
    addEventListener("pointercancel", () => this.hide(), true);
    addEventListener("click", (event) => this.handleClick(event), true);
    addEventListener("focusin", (event) => this.handleFocus(event.target));
    addEventListener("focusout", () => this.hide());
    addEventListener("keydown", (event) => event.key === "Escape" && this.hide(), true);
    // While the user types, the tooltip would cover the text.
    addEventListener("input", () => this.hide(), true);
    // Scrolling hides the tooltip only if its element moves. The disassembly also scrolls while time is running.
    addEventListener("scroll", ({ target }) => {
      if (target instanceof Node && this.describedElement && target.contains(this.describedElement)) this.hide();
    }, true);
  }

  /**
   * @param {HTMLElement} node
   * @param {() => Tip} tip
   */
  add(node, tip) {
    this.tips.set(node, tip);
  }

  /**
   * Returns the nearest element with a tooltip, or null if there is none.
   * @param {EventTarget | null} target
   * @param {boolean} skipsTitles true to skip elements whose `title` the browser shows itself
   * @returns {HTMLElement | null}
   */
  findNode(target, skipsTitles) {
    for (let node = target instanceof Element ? target : null; node; node = node.parentElement) {
      if (!(node instanceof HTMLElement)) continue;
      if (this.tips.has(node) || (!skipsTitles && node.title && node.matches("button, input, select, [tabindex]"))) return node;
    }
    return null;
  }

  /** @param {PointerEvent} event */
  handlePointerOver({ target, pointerType }) {
    const node = pointerType === "touch" ? null : this.findNode(target, true);
    if (!node || node === this.describedElement) return;
    this.scheduleShow(node, HOVER_DELAY_MS);
  }

  /** @param {PointerEvent} event */
  handlePointerDown({ target, pointerType }) {
    this.hide();
    this.isOpenedByTouch = false;
    const node = pointerType === "touch" ? this.findNode(target, false) : null;
    if (!node || node.matches("#keys *")) return;
    this.timer = window.setTimeout(() => {
      this.isOpenedByTouch = true;
      this.show(node);
    }, LONG_TOUCH_MS);
  }

  /** Hides a tooltip that a touch has opened, TOUCH_TIP_MS after the touch has ended. */
  handleTouchEnd() {
    clearTimeout(this.timer);
    if (this.isOpenedByTouch) this.timer = window.setTimeout(() => this.hide(), TOUCH_TIP_MS);
  }

  /**
   * Ignores the click of a touch that has opened a tooltip.
   * @param {Event} event
   */
  handleClick(event) {
    if (!this.isOpenedByTouch) return;
    this.isOpenedByTouch = false;
    event.preventDefault();
    event.stopPropagation();
  }

  /** @param {EventTarget | null} target */
  handleFocus(target) {
    const node = this.findNode(target, false);
    if (node && node === target && node.matches(":focus-visible")) this.scheduleShow(node, 0);
  }

  /**
   * @param {HTMLElement} node
   * @param {number} time
   */
  scheduleShow(node, time) {
    clearTimeout(this.timer);
    this.timer = window.setTimeout(() => this.show(node), time);
  }

  /** @param {HTMLElement} node */
  show(node) {
    const tip = this.tips.get(node);
    const { text, key } = tip ? tip() : { text: node.title, key: "" };
    if (!text || !node.isConnected) return;
    this.describedElement = node;
    this.node.replaceChildren(text, ...(key ? [" ", element("kbd", {}, key)] : []));
    // An open dialog covers all elements outside it, so the tooltip must be inside.
    (node.closest("dialog[open]") || document.body).append(this.node);
    this.node.hidden = false;
    this.placeNear(node.getBoundingClientRect());
  }

  /** @param {DOMRect} box */
  placeNear({ left, width, top, bottom }) {
    const { offsetWidth, offsetHeight, style } = this.node;
    const maxLeft = document.documentElement.clientWidth - offsetWidth - GAP;
    const isBelow = bottom + GAP + offsetHeight < innerHeight;
    style.setProperty("left", `${Math.max(GAP, Math.min(left + width / 2 - offsetWidth / 2, maxLeft))}px`);
    style.setProperty("top", `${isBelow ? bottom + GAP : top - GAP - offsetHeight}px`);
  }

  hide() {
    clearTimeout(this.timer);
    this.describedElement = null;
    if (!this.node.hidden) this.node.hidden = true;
  }
}
