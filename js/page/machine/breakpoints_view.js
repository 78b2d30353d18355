// The list of breakpoints and the log below it. An entry shows the breakpoint's mark, location and hit count, a check box that enables it,
// and buttons that edit and remove it. The entry's second line shows the breakpoint's condition, log message and error.

import { formatCycles } from "../../core/time/cycles.js";
import { addressWithName, lineReference } from "../../words/stops.js";
import { Cell, block, button, makeButton, element, onClick } from "../ui/dom.js";
import { formatQuantity, hex } from "../../core/bench/numbers.js";
import { MAX_NOTES } from "../../core/debug/arrivals.js";
import { describeDetails, breakpointMark } from "../../core/machine/breakpoint_marks.js";
import * as say from "../../words/machine.js";

/**
 * @typedef {import("../../core/debug/breakpoints.js").Breakpoint} Breakpoint
 * @typedef {import("../../core/debug/breakpoints.js").SavedBreakpoint} SavedBreakpoint
 * @typedef {import("../../core/debug/debugger.js").Tally} Tally
 * @typedef {import("../../core/machine/source_map.js").SourceMap} SourceMap
 * @typedef {import("../../core/debug/breakpoint_manager.js").BreakpointManager} BreakpointManager
 * @typedef {Pick<BreakpointManager, "list" | "errors" | "map">} ShownManager
 * @typedef {{ root: HTMLLIElement, enableCheckBox: HTMLInputElement, mark: Cell, location: Cell, edit: HTMLButtonElement, hits: Cell,
 *   details: Cell, error: Cell }} Row
 */

/**
 * The callbacks of the breakpoint list.
 * @typedef {object} BreakpointCalls
 * @property {(id: number, changes: Partial<SavedBreakpoint>) => void} change Changes the properties of the breakpoint with this id; for
 *   example, enables or disables the breakpoint.
 * @property {(breakpoint: Breakpoint) => void} edit Opens the form that edits a breakpoint.
 * @property {(id: number) => void} remove Removes the breakpoint with this id.
 * @property {(isOn: boolean) => void} switchAll Enables or disables all breakpoints.
 * @property {() => void} removeAll Removes all breakpoints.
 * @property {() => void} resetHits Sets all hit counts to 0.
 * @property {(breakpoint: Breakpoint) => void} goTo Shows a breakpoint's address and source line, or one of them if the other is missing.
 */

/**
 * Returns a breakpoint's location as text: its address and name if it has an address and there is a source map, otherwise its source line.
 * If it has no line, returns only the address.
 * @param {Breakpoint} breakpoint
 * @param {SourceMap | null} map
 */
export function formatLocation({ line, address }, map) {
  if (map && address >= 0) return addressWithName(hex(address, 3), map);
  return line > 0 ? lineReference(line) : hex(address, 3);
}

export class BreakpointsView {
  /** @param {BreakpointCalls} calls */
  constructor(calls) {
    this.calls = calls;
    this.root = block("breakpoint-list");
    this.emptyNote = block("breakpoints-none");
    this.notes = block("breakpoint-notes");
    /** @type {Map<number, Row>} */
    this.rows = new Map();
    onClick(button("breakpoints-on"), () => calls.switchAll(true));
    onClick(button("breakpoints-off"), () => calls.switchAll(false));
    onClick(button("breakpoints-remove"), () => calls.removeAll());
    onClick(button("breakpoints-hits"), () => calls.resetHits());
  }

  /** @param {ShownManager} manager */
  show(manager) {
    const { list: { all }, errors, map } = manager;
    for (const [id, { root }] of this.rows) {
      if (all.some((breakpoint) => breakpoint.id === id)) continue;
      root.remove();
      this.rows.delete(id);
    }
    all.forEach((breakpoint, index) => {
      const row = this.rows.get(breakpoint.id) || this.makeRow(breakpoint.id, manager);
      if (this.root.children[index] !== row.root) this.root.insertBefore(row.root, this.root.children[index] || null);
      this.showRow(row, breakpoint, errors.get(breakpoint.id) || "", map);
    });
    this.emptyNote.hidden = all.length > 0;
    block("breakpoints-bar").hidden = all.length === 0;
  }

  /**
   * @param {Row} row
   * @param {Breakpoint} breakpoint
   * @param {string} error the error in the breakpoint's condition or log message; "" if there is none
   * @param {SourceMap | null} map
   */
  showRow(row, breakpoint, error, map) {
    const { isOn, hits } = breakpoint;
    const { mark, description } = breakpointMark(breakpoint, error);
    row.enableCheckBox.checked = isOn;
    row.mark.set(mark);
    row.mark.node.title = description;
    const location = formatLocation(breakpoint, map);
    row.location.set(location);
    row.edit.setAttribute("aria-label", say.editBreakpoint(location));
    row.hits.set(hits > 0 ? formatQuantity(hits, "hit") : "");
    row.details.set(describeDetails(breakpoint));
    row.error.set(error && say.stopsEachTime(error));
  }

  /** @param {ShownManager} manager */
  showHits({ list: { all } }) {
    for (const { id, hits } of all) {
      const row = this.rows.get(id);
      if (row && hits > 0) row.hits.set(formatQuantity(hits, "hit"));
    }
  }

  /**
   * @param {number} id
   * @param {ShownManager} manager
   * @returns {Row}
   */
  makeRow(id, manager) {
    const enableCheckBox = element("input", { "type": "checkbox", "aria-label": say.ON, "autocomplete": "off" });
    const locationButton = element("button", { type: "button", className: "place" });
    const hitsNode = element("span", { className: "hits" });
    const [mark, location, hits, details, error] = [element("i", { "aria-hidden": "true" }), locationButton, hitsNode,
      element("p", { className: "words" }), element("p", { className: "fault" })].map((node) => new Cell(node));
    const withBreakpoint = (/** @type {(breakpoint: Breakpoint) => void} */ action) => () => {
      const breakpoint = manager.list.get(id);
      if (breakpoint) action(breakpoint);
    };
    const edit = makeButton(say.EDIT, withBreakpoint((breakpoint) => this.calls.edit(breakpoint)), { className: "edit" });
    const remove = makeButton("\u00D7", () => this.calls.remove(id), { "aria-label": say.REMOVE_BREAKPOINT, "title": say.REMOVE_TIP });
    const root = element("li", {}, element("div", { className: "bar" }, enableCheckBox, mark.node, location.node, hits.node, edit, remove),
      details.node, error.node);
    enableCheckBox.addEventListener("change", () => this.calls.change(id, { isOn: enableCheckBox.checked }));
    onClick(location.node, withBreakpoint((breakpoint) => this.calls.goTo(breakpoint)));
    const row = { root, enableCheckBox, mark, location, edit, hits, details, error };
    this.rows.set(id, row);
    return row;
  }

  /**
   * Appends the log messages of breakpoints to the log, and says how many messages were omitted. Removes the oldest messages if there are
   * more than MAX_NOTES.
   * @param {Tally} tally
   * @param {ShownManager} manager
   */
  log({ notes, noteCount }, manager) {
    if (notes.length === 0) return;
    const lines = notes.slice(-MAX_NOTES).map(({ id, cycles, text }) => {
      const breakpoint = manager.list.get(id);
      const location = breakpoint ? formatLocation(breakpoint, manager.map) : "";
      return element("p", { title: say.loggedAt(formatCycles(cycles)) }, element("b", {}, location), ` ${text}`);
    });
    const omittedCount = (noteCount - notes.length).toLocaleString("en");
    if (noteCount > notes.length) lines.unshift(element("p", { className: "hint" }, say.moreNotes(omittedCount)));
    this.notes.hidden = false;
    this.notes.append(...lines);
    while (this.notes.children.length > MAX_NOTES) this.notes.children[0].remove();
    this.notes.scrollTop = this.notes.scrollHeight;
  }

  /**
   * Returns the list entry of the breakpoint with an id, or undefined if the list has no such breakpoint.
   * @param {number} id
   */
  rowElement(id) {
    const row = this.rows.get(id);
    return row && row.root;
  }

  /** @param {number} id the id of the breakpoint whose row receives the focus */
  focus(id) {
    const row = this.rows.get(id);
    if (row) row.edit.focus();
  }

  /** Clears the log, because another session has been opened. */
  clearLog() {
    this.notes.replaceChildren();
    this.notes.hidden = true;
  }
}
