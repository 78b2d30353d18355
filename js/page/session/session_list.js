// The list of saved sessions. The user opens and copies sessions one at a time, and deletes one or several sessions. Deleted sessions can
// be restored.

import { block, button, element, field } from "../ui/dom.js";
import { drawBoardPicture } from "./gallery_view.js";
import * as say from "../../words/session.js";

/**
 * @typedef {import("./store.js").SessionRecord} SessionRecord
 */

/**
 * The callbacks of the list. Sessions are identified by id.
 * @typedef {object} SessionListCalls
 * @property {(id: string) => boolean} isCurrent Returns true if a session is the current session.
 * @property {(id: string) => Promise<boolean>} open Opens a session. Resolves to false after a failure. The failure has already been
 *   reported.
 * @property {(id: string) => Promise<boolean>} copy Copies a session and opens the copy. Resolves to false after a failure.
 * @property {(records: SessionRecord[]) => Promise<void>} remove Deletes sessions. Deleted sessions can be restored.
 * @property {() => SessionRecord[]} deletedSessions Returns the sessions that can be restored.
 * @property {(records: SessionRecord[]) => Promise<void>} restoreSessions Restores deleted sessions.
 * @property {(action: () => Promise<boolean>) => void} runAndClose Executes `action`. Closes the dialog unless `action` resolves to false.
 * @property {(text: string, label: string, action: () => void) => HTMLButtonElement} makeButton Returns a button with a visible text, a
 *   label for screen readers, and an action.
 */

export class SessionList {
  /** @param {SessionListCalls} calls */
  constructor(calls) {
    this.calls = calls;
    this.listBlock = block("kept");
    this.deletedBlock = block("deleted");
    /** @type {SessionRecord[]} */
    this.records = [];
    /** The ids of the selected sessions. */
    this.selectedIds = new Set();
    field("choose-all").addEventListener("change", () => this.selectAll(field("choose-all").checked));
    button("delete-chosen").addEventListener("click", () => this.removeSelected());
  }

  /** The sessions that can be deleted: all except the current session. */
  get removableSessions() {
    return this.records.filter((record) => !this.calls.isCurrent(record.id));
  }

  /** @param {SessionRecord[]} records */
  draw(records) {
    this.records = records;
    const { removableSessions } = this;
    this.selectedIds = new Set(removableSessions.map(({ id }) => id).filter((id) => this.selectedIds.has(id)));
    this.listBlock.replaceChildren(...records.map((record) => this.makeEntry(record)));
    const deletedRecords = this.calls.deletedSessions();
    block("bin").hidden = deletedRecords.length === 0;
    this.deletedBlock.replaceChildren(...deletedRecords.map((record) => this.makeDeletedEntry(record)));
    block("choosing").hidden = removableSessions.length < 2;
    this.showSelection();
  }

  showSelection() {
    const deleteButton = button("delete-chosen");
    deleteButton.disabled = this.selectedIds.size === 0;
    deleteButton.textContent = this.selectedIds.size === 0 ? say.DELETE_SELECTED : say.deleteSelected(this.selectedIds.size);
    field("choose-all").checked = this.selectedIds.size > 0 && this.selectedIds.size === this.removableSessions.length;
  }

  /** @param {boolean} isSelected */
  selectAll(isSelected) {
    this.selectedIds = new Set(isSelected ? this.removableSessions.map(({ id }) => id) : []);
    this.draw(this.records);
  }

  /** @param {SessionRecord} record */
  makeEntry(record) {
    const isCurrent = this.calls.isCurrent(record.id);
    const { name, id } = record;
    const openLabel = isCurrent ? say.SHOWN : say.OPEN;
    const openButton = this.calls.makeButton(openLabel, say.openNamed(name), () => this.calls.runAndClose(() => this.calls.open(id)));
    openButton.disabled = isCurrent;
    const copyButton = this.calls.makeButton(say.COPY, say.copyNamed(name), () => this.calls.runAndClose(() => this.calls.copy(id)));
    const deleteButton = this.calls.makeButton(say.DELETE, say.deleteNamed(name), () => this.remove([record]));
    deleteButton.disabled = isCurrent;
    const checkBox = this.makeCheckBox(record, isCurrent);
    const description = makeSessionDescription(record);
    return element("li", {}, checkBox, drawBoardPicture(record.boardText), description, openButton, copyButton, deleteButton);
  }

  /**
   * @param {SessionRecord} record
   * @param {boolean} isCurrent
   */
  makeCheckBox({ id, name }, isCurrent) {
    const box = element("input", { type: "checkbox", checked: this.selectedIds.has(id), disabled: isCurrent, autocomplete: "off" });
    box.setAttribute("aria-label", say.selectNamed(name));
    box.addEventListener("change", () => {
      if (box.checked) this.selectedIds.add(id);
      else this.selectedIds.delete(id);
      this.showSelection();
    });
    return box;
  }

  /** @param {SessionRecord} record */
  makeDeletedEntry(record) {
    const restoreButton = this.calls.makeButton(say.RESTORE, say.restoreNamed(record.name), async () => {
      await this.calls.restoreSessions([record]);
      this.focusEntry(0);
    });
    return element("li", {}, drawBoardPicture(record.boardText), makeSessionDescription(record), restoreButton);
  }

  removeSelected() {
    return this.remove(this.records.filter(({ id }) => this.selectedIds.has(id)));
  }

  /**
   * Deletes sessions. The focus then moves to the entry that takes the position of the first deleted entry.
   * @param {SessionRecord[]} records
   */
  async remove(records) {
    const index = this.records.indexOf(records[0]);
    await this.calls.remove(records);
    this.focusEntry(index);
  }

  /** @param {number} index */
  focusEntry(index) {
    const entry = this.listBlock.children[Math.min(index, this.listBlock.children.length - 1)];
    const firstButton = entry && entry.querySelector("button:not(:disabled)");
    if (firstButton instanceof HTMLElement) firstButton.focus();
    else button("close-sessions").focus();
  }
}

/**
 * Returns an element with a session's name, the time of its last change, and its cycle count.
 * @param {SessionRecord} record
 */
function makeSessionDescription({ name, changed, cycles }) {
  const changeTime = new Date(changed).toLocaleString([], { dateStyle: "medium", timeStyle: "short" });
  const cycleText = cycles && cycles.total > 0 ? say.withCycles(cycles.total.toLocaleString("en")) : "";
  return element("span", { className: "grow" }, name, element("small", {}, `${changeTime}${cycleText}`));
}
