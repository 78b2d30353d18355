// The form that edits a breakpoint's condition, hit count and log message. The form appears below the breakpoint's source line, or in the
// list of breakpoints if the breakpoint has no line. Enter applies the changes, Escape discards them.

import { parseCount } from "../../core/bench/numbers.js";
import { Cell, makeButton, element } from "../ui/dom.js";
import * as say from "../../words/machine.js";

/**
 * @typedef {import("../../core/debug/breakpoints.js").Breakpoint} Breakpoint
 * @typedef {import("../../core/debug/breakpoints.js").SavedBreakpoint} SavedBreakpoint
 * @typedef {"condition" | "from" | "note"} BreakpointField
 * @typedef {Pick<SavedBreakpoint, BreakpointField>} BreakpointTexts
 */

/**
 * The callbacks of the breakpoint form.
 * @typedef {object} BreakpointFormCalls
 * @property {(id: number, changes: BreakpointTexts) => void} change Changes the breakpoint with this id, and sends the change to the bench.
 * @property {(id: number, changes: BreakpointTexts) => void} showTypedTexts Saves what the user has typed and shows it in the breakpoint's
 *   mark and list entry, but does not send it to the bench.
 * @property {() => Promise<void>} waitForChanges Resolves when the bench has received all changes.
 * @property {(breakpoint: Breakpoint, node: HTMLElement) => void} placeForm Puts the form below the breakpoint's source line, or into the
 *   list of breakpoints if the breakpoint has no line.
 * @property {(action: () => void) => void} callWhenPlaced Calls `action` when the form is in the page and can receive the focus.
 * @property {(node: HTMLElement) => void} removeForm Removes the form.
 * @property {(breakpoint: Breakpoint) => void} returnFocus Moves the focus back to the breakpoint's line or list entry.
 */

const MAX_HIT_COUNT = 999999999;

/**
 * @param {string} label
 * @param {Record<string, unknown>} properties
 */
function makeField(label, properties) {
  const field = element("input", { autocomplete: "off", autocapitalize: "off", spellcheck: false, ...properties });
  return { field, label: element("label", {}, element("span", {}, label), field) };
}

/** @param {Breakpoint} breakpoint */
const textsOf = ({ condition, from, note }) => ({ condition, from, note });

export class BreakpointForm {
  /** @param {BreakpointFormCalls} calls */
  constructor(calls) {
    this.calls = calls;
    /** @type {Breakpoint | null} the breakpoint before the edits; null if the form is closed */
    this.originalBreakpoint = null;
    const labelledFields = {
      condition: makeField(say.CONDITION, { "placeholder": say.CONDITION_EXAMPLE, "aria-description": say.CONDITION_HINT }),
      from: makeField(say.HIT_COUNT, { "size": 6, "inputMode": "numeric", "aria-description": say.STOPS_FROM_HIT }),
      note: makeField(say.LOG_MESSAGE, { "placeholder": say.NOTE_EXAMPLE, "aria-description": say.LOG_MESSAGE_HINT }),
    };
    this.fields = { condition: labelledFields.condition.field, from: labelledFields.from.field, note: labelledFields.note.field };
    this.status = new Cell(element("p", { className: "fault", role: "alert" }));
    this.node = element("form", { "className": "breakpoint-row", "aria-label": say.BREAKPOINT_FIELDS },
      ...Object.values(labelledFields).map(({ label }) => label), element("div", { className: "bar" },
        element("button", { type: "submit", title: "Enter" }, say.APPLY),
        makeButton(say.CANCEL, () => this.cancel(), { title: "Escape" })), this.status.node);
    this.addListeners();
  }

  addListeners() {
    const { node } = this;
    node.addEventListener("submit", (event) => {
      event.preventDefault();
      void this.apply();
    });
    node.addEventListener("input", () => {
      const changes = this.readFields();
      if (this.originalBreakpoint && changes) this.calls.showTypedTexts(this.originalBreakpoint.id, changes);
    });
    node.addEventListener("keydown", (event) => {
      if (event.key !== "Escape") return;
      event.preventDefault();
      event.stopPropagation();
      this.cancel();
    });
    // The form stays open when it loses focus, so that nothing moves under the pointer.
    node.addEventListener("focusout", ({ relatedTarget }) => {
      if (!(relatedTarget instanceof Node && node.contains(relatedTarget))) this.applyFields();
    });
  }

  /**
   * Opens the form for a breakpoint, with the caret in one of its fields. If the form is already open, first applies its fields.
   * @param {Breakpoint} breakpoint
   * @param {string} error the error in the breakpoint's condition or log message; "" if there is none
   * @param {BreakpointField} fieldName the field that receives the caret
   */
  open(breakpoint, error, fieldName) {
    this.applyFields();
    this.originalBreakpoint = breakpoint;
    const { fields } = this;
    fields.condition.value = breakpoint.condition;
    fields.from.value = breakpoint.from > 1 ? String(breakpoint.from) : "";
    fields.note.value = breakpoint.note;
    this.readFields();
    this.showError(error);
    this.calls.placeForm(breakpoint, this.node);
    const focus = () => {
      fields[fieldName].focus();
      fields[fieldName].select();
    };
    // If the line is scrolled out of view, the form is not in the page yet and cannot receive the focus.
    if (this.node.isConnected) focus();
    else this.calls.callWhenPlaced(focus);
  }

  /**
   * Updates the form after the list of breakpoints has changed. Closes the form if its breakpoint was removed.
   * @param {(id: number) => Breakpoint | undefined} find returns the breakpoint with an id, or undefined if it was removed
   * @param {Map<number, string>} errors the error of each breakpoint that has an error, by breakpoint id
   */
  show(find, errors) {
    if (!this.originalBreakpoint) return;
    const breakpoint = find(this.originalBreakpoint.id);
    if (!breakpoint) {
      this.close();
      return;
    }
    this.calls.placeForm(breakpoint, this.node);
    this.showError(errors.get(breakpoint.id) || "");
  }

  /** @param {string} error the error in the applied condition or log message; "" if there is none */
  showError(error) {
    this.status.set(error && say.stopsEachTime(error));
    this.fields.condition.setAttribute("aria-invalid", String(error !== ""));
  }

  /**
   * Returns the contents of the fields, or null if the hit count is not a valid number. Marks an invalid hit count.
   * @returns {BreakpointTexts | null}
   */
  readFields() {
    const { condition, from, note } = this.fields;
    const hitCount = from.value.trim() === "" ? 1 : parseCount(from.value, MAX_HIT_COUNT);
    from.setAttribute("aria-invalid", String(hitCount < 1));
    return hitCount < 1 ? null : { condition: condition.value.trim(), from: hitCount, note: note.value.trim() };
  }

  /**
   * Applies the contents of the fields. Applies nothing and returns false if the form is closed or the hit count is not a valid number.
   */
  applyFields() {
    const changes = this.originalBreakpoint && this.readFields();
    if (this.originalBreakpoint && changes) this.calls.change(this.originalBreakpoint.id, changes);
    return changes !== null;
  }

  /** Applies the contents of the fields. Closes the form if neither the condition nor the log message has an error. */
  async apply() {
    const { originalBreakpoint } = this;
    if (!originalBreakpoint || !this.applyFields()) return;
    await this.calls.waitForChanges();
    if (this.originalBreakpoint === originalBreakpoint && this.status.text === "") this.finish(originalBreakpoint);
  }

  /** Restores the condition, hit count and log message from before the edits, and closes the form. */
  cancel() {
    const { originalBreakpoint } = this;
    if (!originalBreakpoint) return;
    this.calls.change(originalBreakpoint.id, textsOf(originalBreakpoint));
    this.finish(originalBreakpoint);
  }

  /** @param {Breakpoint} originalBreakpoint */
  finish(originalBreakpoint) {
    const hadFocus = this.node.contains(document.activeElement);
    // While `originalBreakpoint` is null, a loss of focus does not apply the fields.
    this.originalBreakpoint = null;
    // Move the focus before the form is removed. Otherwise, WebKit moves the caret to the start of the source.
    if (hadFocus) this.calls.returnFocus(originalBreakpoint);
    this.calls.removeForm(this.node);
  }

  /** Removes the form without applying its fields. */
  close() {
    if (!this.originalBreakpoint) return;
    this.originalBreakpoint = null;
    this.calls.removeForm(this.node);
  }
}
