// Scrolling of the disassembly. The content of the box is as high as the rows of all 4,096 addresses together, but only the visible rows
// exist as elements. The browser handles the scroll bar, the wheel and touch. Keys move the focus by rows or by pages.

import { ADDRESS_COUNT } from "../../core/bench/rom_bytes.js";
import { element } from "../ui/dom.js";

/**
 * The callbacks of the disassembly's scrolling.
 * @typedef {object} ScrollCalls
 * @property {(rows: number) => void} handleResize Handles a resize: the box now has room for `rows` rows.
 * @property {(address: number) => void} showFrom Shows the disassembly from the address to which the user has scrolled.
 * @property {(rows: number) => void} moveFocus Moves the focus by a number of rows; negative numbers move up.
 * @property {(end: "first" | "last") => void} moveFocusToEnd Moves the focus to the first or last row of the disassembly.
 */

/** The assumed height of a row in pixels before a row has been laid out. */
const DEFAULT_ROW_HEIGHT = 24;

export class ListingScroll {
  /**
   * @param {HTMLElement} root the box that scrolls
   * @param {ScrollCalls} calls
   */
  constructor(root, calls) {
    this.root = root;
    this.calls = calls;
    this.rows = element("div", { className: "rows" });
    this.spacer = element("div", { className: "length" }, this.rows);
    this.rowHeight = DEFAULT_ROW_HEIGHT;
    /** The scroll position in pixels at the last call of `handleScroll`. */
    this.handledScrollTop = 0;
    root.append(this.spacer);
    root.addEventListener("scroll", () => this.handleScroll(), { passive: true });
    root.addEventListener("keydown", (event) => this.handleKey(event));
    new ResizeObserver(() => this.measure()).observe(root);
  }

  /**
   * Measures the box and a row, and sets the new sizes at the next frame, because the callback of a ResizeObserver must not change sizes.
   * Measuring at the next frame would cause another layout of the page.
   */
  measure() {
    const { clientHeight } = this.root;
    if (clientHeight === 0) return;
    const row = this.rows.firstElementChild;
    const rowHeight = (row instanceof HTMLElement && row.offsetHeight) || DEFAULT_ROW_HEIGHT;
    requestAnimationFrame(() => this.setSizes(clientHeight, rowHeight));
  }

  /**
   * @param {number} clientHeight the height of the box in pixels
   * @param {number} rowHeight the height of a row in pixels
   */
  setSizes(clientHeight, rowHeight) {
    this.rowHeight = rowHeight;
    this.spacer.style.setProperty("height", `${ADDRESS_COUNT * this.rowHeight}px`);
    this.calls.handleResize(Math.max(1, Math.floor(clientHeight / this.rowHeight)));
  }

  /**
   * Scrolls the box so that an address is in the first row.
   * @param {number} address
   */
  scrollToAddress(address) {
    this.root.scrollTop = address * this.rowHeight;
    this.handledScrollTop = this.root.scrollTop;
  }

  handleScroll() {
    const { scrollTop } = this.root;
    if (Math.abs(scrollTop - this.handledScrollTop) < this.rowHeight / 2) return;
    this.handledScrollTop = scrollTop;
    this.calls.showFrom(Math.round(scrollTop / this.rowHeight));
  }

  /** @param {KeyboardEvent} event */
  handleKey(event) {
    if (event.ctrlKey || event.altKey || event.metaKey) return;
    const pageRows = Math.max(1, Math.floor(this.root.clientHeight / this.rowHeight) - 1);
    /** @type {Record<string, () => void>} */
    const actions = {
      ArrowUp: () => this.calls.moveFocus(-1),
      ArrowDown: () => this.calls.moveFocus(1),
      PageUp: () => this.calls.moveFocus(-pageRows),
      PageDown: () => this.calls.moveFocus(pageRows),
      Home: () => this.calls.moveFocusToEnd("first"),
      End: () => this.calls.moveFocusToEnd("last"),
    };
    if (!Object.prototype.hasOwnProperty.call(actions, event.key)) return;
    event.preventDefault();
    actions[event.key]();
  }
}
