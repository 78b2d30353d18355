// The visible rows of the disassembly: one button for each line that fits.

import { Cell, Switch, element, onClick, makePressedSwitch } from "../ui/dom.js";
import * as say from "../../words/machine.js";

/**
 * @typedef {import("../../core/machine/listing_names.js").NamedLine} NamedLine
 *
 * @typedef {import("../../core/machine/breakpoint_marks.js").BreakpointMark} BreakpointMark
 *
 * A row. `address` is the address of the row's instruction. `markedAddress` is the address of a breakpoint in that instruction, or
 * `address` if there is none.
 * @typedef {{ button: HTMLButtonElement, address: number, markedAddress: number, mark: Cell, bytes: Cell, labels: Cell,
 *   instruction: Cell, breakpointSwitch: Switch, counterSwitch: Switch }} Row
 */

/**
 * Returns the mark of the breakpoint at an instruction's second byte, or undefined if there is no such breakpoint.
 * @param {string} address
 * @param {Map<string, BreakpointMark>} breakpoints
 * @returns {BreakpointMark | undefined}
 */
function findSecondByteMark(address, breakpoints) {
  if (!breakpoints.has(address)) return undefined;
  const message = say.breakpointInsideInstruction(address);
  return { mark: "\u25CB", description: message };
}

export class ListingRows {
  /**
   * @param {HTMLElement} root
   * @param {(address: number) => void} toggleBreakpoint
   */
  constructor(root, toggleBreakpoint) {
    this.root = root;
    this.toggleBreakpoint = toggleBreakpoint;
    /** @type {Row[]} */
    this.rows = [];
    /** The number of visible rows. */
    this.visibleCount = 0;
    root.addEventListener("focusin", (event) => this.setTabStop(event.target));
  }

  get count() {
    return this.rows.length;
  }

  /** @param {number} count */
  resize(count) {
    while (this.rows.length < count) {
      const row = this.makeRow();
      this.rows.push(row);
      this.root.append(row.button);
    }
    for (const row of this.rows.splice(count)) row.button.remove();
    this.setTabStop(this.rows[0].button);
  }

  /** @returns {Row} */
  makeRow() {
    const mark = new Cell(element("i", { "aria-hidden": "true" }));
    const [bytes, labels, instruction] = ["bytes", "labels", "instruction"].map((className) => new Cell(element("span", { className })));
    const button = element("button", { type: "button" }, mark.node, bytes.node, labels.node, instruction.node);
    const counterSwitch = new Switch((isNext) => {
      button.classList.toggle("next", isNext);
      if (isNext) button.setAttribute("aria-current", "true");
      else button.removeAttribute("aria-current");
    });
    /** @type {Row} */
    const row = {
      button, address: 0, markedAddress: 0, mark, bytes, labels, instruction, breakpointSwitch: makePressedSwitch(button), counterSwitch,
    };
    onClick(button, () => this.toggleBreakpoint(row.markedAddress));
    return row;
  }

  /**
   * Makes one row the only tab stop of the disassembly.
   * @param {EventTarget | null} tabStop
   */
  setTabStop(tabStop) {
    for (const { button } of this.rows) button.tabIndex = button === tabStop ? 0 : -1;
  }

  /**
   * @param {NamedLine[]} lines
   * @param {number} counter
   * @param {Map<string, BreakpointMark>} breakpoints the breakpoint marks, by address
   */
  show(lines, counter, breakpoints) {
    this.visibleCount = Math.min(lines.length, this.rows.length);
    this.rows.forEach((row, index) => {
      const line = lines[index];
      row.button.hidden = line === undefined;
      if (!line) return;
      const firstByteMark = breakpoints.get(line.firstAddress);
      const mark = firstByteMark || findSecondByteMark(line.secondAddress, breakpoints);
      const title = [mark ? mark.description : "", line.source].filter(Boolean).join("; ");
      row.address = line.address;
      row.markedAddress = mark && !firstByteMark ? parseInt(line.secondAddress, 16) : line.address;
      row.bytes.set(line.bytes);
      row.labels.set(line.labels);
      row.instruction.set(line.instruction);
      if (row.button.title !== title) row.button.title = title;
      row.mark.set(mark ? mark.mark : "");
      row.counterSwitch.set(line.address === counter);
      row.breakpointSwitch.set(mark !== undefined);
    });
  }

  /**
   * Returns the address of the row that contains a node, or null if no row contains it.
   * @param {Node} node
   */
  addressAt(node) {
    const row = this.rows.find(({ button }) => button.contains(node));
    return row ? row.address : null;
  }

  /** The index of the row with the focus, or -1 if no row has the focus. */
  get focusedIndex() {
    return this.rows.findIndex(({ button }) => button === document.activeElement);
  }

  /** @param {number} index */
  focus(index) {
    this.rows[Math.max(0, Math.min(index, this.visibleCount - 1))].button.focus({ preventScroll: true });
  }

  /**
   * Moves the element of the first row to the end, so that each index has a different element. If the focus then moves to the same index, a
   * screen reader announces the new row.
   */
  rotateRows() {
    const [first] = this.rows.splice(0, 1);
    this.rows.push(first);
    this.root.append(first.button);
  }
}
