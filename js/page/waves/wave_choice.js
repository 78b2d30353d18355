// The selection of lines and values to show: a check box for each, grouped by chip or port, and a search field.

import { Cell, block, button, element, field, onClick } from "../ui/dom.js";
import { chooseInitialLines, groupTitle, searchLines, listChosenValueNames } from "../../core/waves/wave_catalog.js";
import * as say from "../../words/waves.js";

/**
 * @typedef {import("../../core/waves/wave_lines.js").WaveLine} WaveLine
 * @typedef {import("../../core/waves/wave_recording.js").Waves} Waves
 */

/**
 * The callbacks of the selection.
 * @typedef {object} ChoiceCalls
 * @property {() => WaveLine[]} boardLines Returns all lines of the board, recorded or not.
 * @property {(lines: number[]) => void} showLines Shows the lines of the recording with the indices `lines`, in this order.
 * @property {() => void} handleMissingValues Called when the user selects values that the recording does not include.
 */

export class WaveChoice {
  /** @param {ChoiceCalls} calls */
  constructor(calls) {
    this.calls = calls;
    /** @type {Waves | null} */
    this.waves = null;
    /** @type {Set<string>} the names of the selected lines and values */
    this.selectedNames = new Set();
    /** True if the user has selected the lines; false if the page has selected the lines whose levels change. */
    this.isUserSelection = false;
    this.status = new Cell(block("signals-status"));
    /** @type {Map<string, HTMLInputElement>} the check boxes, by line name */
    this.checkBoxes = new Map();
    onClick(button("waves-changing"), () => this.selectChangingLines());
    onClick(button("waves-all"), () => this.waves && this.setSelection(this.waves.lines.map(({ name }) => name), true));
    onClick(button("waves-none"), () => this.setSelection([], true));
    field("signal-search").addEventListener("input", () => this.draw());
    block("wave-choice").addEventListener("toggle", () => this.draw());
  }

  /** The names of the selected registers and nibbles, which must be recorded. */
  get valueNames() {
    return listChosenValueNames(this.calls.boardLines(), this.selectedNames);
  }

  /** @param {Waves} waves a new recording; lines whose names the user has selected stay selected */
  setRecording(waves) {
    this.waves = waves;
    const hasSelectedLine = waves.lines.some(({ name, kind }) => kind !== "value" && this.selectedNames.has(name));
    if (!hasSelectedLine) this.isUserSelection = false;
    if (!this.isUserSelection) this.updateSelection(waves);
    this.draw();
    this.showSelection();
  }

  /** Selects the lines whose levels change, unless the user has selected lines. Called when the recording has grown. */
  handleGrowth() {
    if (this.isUserSelection || !this.waves) return;
    if (this.updateSelection(this.waves)) this.showSelection();
  }

  /**
   * Selects the lines whose levels change in a recording, and keeps the selected values. Returns true if the selection has changed.
   * @param {Waves} waves
   */
  updateSelection(waves) {
    const lineNames = chooseInitialLines(waves).map((line) => waves.lines[line].name);
    const valueNames = waves.lines.filter(({ name, kind }) => kind === "value" && this.selectedNames.has(name)).map(({ name }) => name);
    const newSelection = new Set([...lineNames, ...valueNames]);
    if (newSelection.size === this.selectedNames.size && [...newSelection].every((name) => this.selectedNames.has(name))) return false;
    this.selectedNames = newSelection;
    this.updateCheckBoxes();
    return true;
  }

  selectChangingLines() {
    this.isUserSelection = false;
    if (this.waves && this.updateSelection(this.waves)) this.showSelection();
  }

  /** Discards the recording and the selection. */
  discardRecording() {
    this.waves = null;
    this.selectedNames.clear();
    this.isUserSelection = false;
    this.status.set("");
    this.draw();
  }

  /** Draws the check boxes of the lines that match the search, if the list is open. */
  draw() {
    if (!block("wave-choice").hasAttribute("open")) return;
    const { lines, note: moreText } = searchLines(this.calls.boardLines(), field("signal-search").value, this.selectedNames);
    /** @type {Map<string, HTMLElement>} */
    const groups = new Map();
    this.checkBoxes.clear();
    for (const line of lines) {
      const root = groups.get(line.group) || element("fieldset", {}, element("legend", {}, groupTitle(line.group)));
      root.append(this.makeCheckBox(line));
      groups.set(line.group, root);
    }
    this.updateCheckBoxes();
    block("wave-boxes").replaceChildren(...groups.values());
    block("signals-more").textContent = moreText;
  }

  /** @param {WaveLine} line */
  makeCheckBox({ name, title }) {
    const box = element("input", { type: "checkbox", autocomplete: "off", name });
    box.addEventListener("change", () => this.select(name, box.checked));
    this.checkBoxes.set(name, box);
    return element("label", {}, box, name, ...(title === "" ? [] : [element("small", {}, ` ${title}`)]));
  }

  updateCheckBoxes() {
    for (const [name, box] of this.checkBoxes) box.checked = this.selectedNames.has(name);
  }

  /**
   * @param {string} name
   * @param {boolean} isSelected
   */
  select(name, isSelected) {
    const names = new Set(this.selectedNames);
    if (isSelected) names.add(name);
    else names.delete(name);
    this.setSelection(names, true);
  }

  /**
   * @param {Iterable<string>} names
   * @param {boolean} isUserSelection
   */
  setSelection(names, isUserSelection) {
    this.selectedNames = new Set(names);
    this.isUserSelection = isUserSelection;
    this.updateCheckBoxes();
    this.showSelection();
    if (this.missingValueNames.length > 0) this.calls.handleMissingValues();
  }

  /** The names of the selected values that the recording does not include. */
  get missingValueNames() {
    const { waves } = this;
    return waves ? this.valueNames.filter((name) => waves.lines.every((line) => line.name !== name)) : [];
  }

  /** Shows the selected lines, and the names of the selected values that only the next recording will include. */
  showSelection() {
    const { waves, missingValueNames } = this;
    if (!waves) return;
    const names = missingValueNames.slice(0, 3).join(", ") + (missingValueNames.length > 3 ? " .." : "");
    this.status.set(missingValueNames.length === 0 ? "" : say.inNextRecording(names));
    this.calls.showLines(waves.lines.map((_, line) => line).filter((line) => this.selectedNames.has(waves.lines[line].name)));
  }
}
