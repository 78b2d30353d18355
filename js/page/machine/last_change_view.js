// The tooltip about a cell's last change. While time is paused, it says when the value under the pointer, or the focused value, last
// changed, and which line changed it. The bench searches the recorded past for this change.

import { element } from "../ui/dom.js";
import { placeBelow } from "../ui/popup_message.js";

/**
 * @typedef {import("./cell_editor.js").EditableCell} EditableCell
 */

/**
 * The callbacks of the tooltip.
 * @typedef {object} LastChangeCalls
 * @property {() => boolean} isRunning Returns true if time is running. The tooltip appears only while time is paused.
 * @property {(editableCell: EditableCell, signal: AbortSignal) => Promise<string>} describeLastChange Resolves to a description of a cell's
 *   last change, or to "" if `signal` is aborted or the search fails.
 * @property {(cell: HTMLElement) => EditableCell | undefined} editableCellAt Returns the editable cell that the element `cell` shows, or
 *   undefined if the element shows no editable value.
 */

/** The time in milliseconds for which the pointer or the focus must stay on a cell before the tooltip opens. */
const HOVER_DELAY_MS = 400;
/** The distance in pixels between a cell and its tooltip. */
const TIP_DISTANCE = 4;

export class LastChangeView {
  /**
   * @param {HTMLElement[]} panels
   * @param {LastChangeCalls} calls
   */
  constructor(panels, calls) {
    this.calls = calls;
    this.tipTimer = 0;
    this.request = new AbortController();
    this.tip = element("p", { className: "value-tip", id: "change-tip", hidden: true });
    this.tip.setAttribute("role", "status");
    document.body.append(this.tip);
    for (const panel of panels) {
      for (const eventName of ["pointerover", "focusin"]) panel.addEventListener(eventName, ({ target }) => this.startTimer(target));
      for (const eventName of ["pointerout", "focusout"]) panel.addEventListener(eventName, () => this.hideTip());
    }
    // Input cancels the search, so that the user's next action does not wait for the search.
    for (const eventName of ["keydown", "pointerdown"]) addEventListener(eventName, () => this.hideTip(), true);
  }

  /** @param {EventTarget | null} cell */
  startTimer(cell) {
    this.hideTip();
    const editableCell = cell instanceof HTMLElement ? this.calls.editableCellAt(cell) : undefined;
    if (!editableCell) return;
    this.tipTimer = window.setTimeout(() => this.showChange(/** @type {HTMLElement} */ (cell), editableCell), HOVER_DELAY_MS);
  }

  hideTip() {
    clearTimeout(this.tipTimer);
    this.request.abort();
    this.tip.hidden = true;
  }

  /**
   * @param {HTMLElement} cell
   * @param {EditableCell} editableCell
   */
  async showChange(cell, editableCell) {
    if (this.calls.isRunning()) return;
    const request = new AbortController();
    this.request = request;
    const description = await this.calls.describeLastChange(editableCell, request.signal);
    if (description === "" || request.signal.aborted || !cell.isConnected || this.calls.isRunning()) return;
    this.tip.textContent = description;
    this.tip.hidden = false;
    placeBelow(this.tip, cell.getBoundingClientRect(), TIP_DISTANCE);
  }
}
