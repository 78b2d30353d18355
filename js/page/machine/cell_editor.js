// In-place editing of cells. A double click, or Enter or F2 on a cell, opens a field over the cell. Enter sets the value, Escape closes the
// field.

import { element } from "../ui/dom.js";
import { placeBelow } from "../ui/popup_message.js";
import * as say from "../../words/machine.js";

/**
 * An editable cell: its location in the syntax of the `poke` command, its name for the user, and its number of hexadecimal digits.
 * @typedef {{ place: string, name: string, digits: number }} EditableCell
 */

/**
 * The callbacks of the cell editor.
 * @typedef {object} CellEditorCalls
 * @property {(place: string, value: string) => Promise<string>} poke Sets a register or memory cell to a value. `place` and `value` have
 *   the syntax of the `poke` command. Resolves to "", or to the reason why the bench rejects the value.
 * @property {(message: string, cell: HTMLElement) => void} showMessage Shows a message at a cell that cannot be edited now.
 */


/**
 * Returns a typed value in the syntax of the `poke` command, or "" if the text is not a hexadecimal number of at most 8 digits.
 * @param {string} text
 */
export function parseHexValue(text) {
  const match = /^(?:0x)?([0-9a-f]{1,8})$/i.exec(text.trim());
  return match ? `0x${match[1].toUpperCase()}` : "";
}

export class CellEditor {
  /** @param {CellEditorCalls} calls */
  constructor(calls) {
    this.calls = calls;
    /** @type {WeakMap<HTMLElement, EditableCell>} */
    this.editableCells = new WeakMap();
    /** @type {WeakMap<HTMLElement, string>} the reason why each read-only cell cannot be edited */
    this.readOnlyReasons = new WeakMap();
    /** @type {HTMLElement | null} the cell that is being edited */
    this.cell = null;
    this.label = element("span", { className: "unseen" });
    this.field = element("input", { autocomplete: "off", spellcheck: false, maxLength: 12 });
    this.message = element("p", { id: "cell-status" });
    this.message.setAttribute("role", "alert");
    this.field.setAttribute("aria-describedby", this.message.id);
    this.box = element("div", { id: "cell-editor", hidden: true }, element("label", {}, this.label, this.field), this.message);
    document.body.append(this.box);
    this.field.addEventListener("keydown", (event) => this.handleKey(event));
    this.field.addEventListener("blur", () => this.close(false));
  }

  /**
   * Makes a cell editable.
   * @param {HTMLElement} cell
   * @param {EditableCell} target
   */
  makeEditable(cell, target) {
    this.editableCells.set(cell, target);
    this.listen(cell);
  }

  /**
   * Makes a cell read-only. If the user tries to edit the cell, a message shows the reason.
   * @param {HTMLElement} cell
   * @param {string} reason
   */
  makeReadOnly(cell, reason) {
    this.readOnlyReasons.set(cell, reason);
    this.listen(cell);
  }

  /** @param {HTMLElement} cell */
  listen(cell) {
    cell.addEventListener("dblclick", () => this.open(cell));
    cell.addEventListener("keydown", (event) => {
      if ((event.key !== "Enter" && event.key !== "F2") || event.ctrlKey || event.altKey || event.metaKey) return;
      event.preventDefault();
      event.stopPropagation();
      this.open(cell);
    });
  }

  /** @param {HTMLElement} cell */
  open(cell) {
    const reason = this.readOnlyReasons.get(cell);
    if (reason) this.calls.showMessage(reason, cell);
    const target = this.editableCells.get(cell);
    if (!target) return;
    this.cell = cell;
    this.label.textContent = say.inHexadecimal(target.name);
    this.field.value = cell.textContent || "";
    this.field.size = Math.max(2, target.digits);
    this.showMessage("");
    this.box.hidden = false;
    const { left, top } = cell.getBoundingClientRect();
    placeBelow(this.box, { left, bottom: top }, 0);
    this.field.focus();
    this.field.select();
  }

  /** @param {string} message */
  showMessage(message) {
    this.message.textContent = message;
    this.field.setAttribute("aria-invalid", String(message !== ""));
  }

  /** @param {boolean} returnsFocus true if the focus returns to the cell */
  close(returnsFocus) {
    const { cell } = this;
    if (!cell) return;
    this.cell = null;
    this.box.hidden = true;
    if (returnsFocus && cell.isConnected) cell.focus();
  }

  /** @param {KeyboardEvent} event */
  handleKey(event) {
    if (event.key !== "Enter" && event.key !== "Escape") return;
    event.preventDefault();
    event.stopPropagation();
    if (event.key === "Escape") this.close(true);
    else this.submitValue();
  }

  async submitValue() {
    const { cell } = this;
    const target = cell && this.editableCells.get(cell);
    if (!target) return;
    const value = parseHexValue(this.field.value);
    const message = value === "" ? say.NOT_HEXADECIMAL : await this.calls.poke(target.place, value);
    // The user may have left the field in the meantime.
    if (this.cell !== cell) return;
    if (message === "") this.close(true);
    else this.showMessage(message);
  }
}
