// The table of values at the cursors. The table is updated only while it is open.

import { Cell, block, byId, element } from "../ui/dom.js";

/** @typedef {import("../../core/waves/wave_recording.js").Waves} Waves */

export class WaveValues {
  /** @param {() => void} onToggle called after the table has been opened or closed */
  constructor(onToggle) {
    this.node = byId("wave-values", HTMLDetailsElement);
    /** @type {number[]} the index of each row's line in the recording */
    this.rowLines = [];
    /** @type {Cell[][]} */
    this.cells = [];
    this.node.addEventListener("toggle", onToggle);
  }

  /**
   * @param {Waves} waves
   * @param {import("../../core/waves/wave_rows.js").WaveRow[]} rows
   */
  draw({ lines }, rows) {
    this.rowLines = rows.map(({ line }) => line);
    this.cells = rows.map(() => [new Cell(element("td")), new Cell(element("td"))]);
    const rowNodes = rows.map(({ line, title }, index) => element("tr", {}, element("th", { scope: "row" }, title || lines[line].name),
      ...this.cells[index].map((cell) => cell.node)));
    block("wave-table").replaceChildren(...rowNodes);
  }

  /**
   * @param {Waves} waves
   * @param {number[]} cursors
   */
  show(waves, cursors) {
    if (!this.node.open) return;
    this.cells.forEach((cells, row) => cells.forEach((cell, index) => cell.set(waves.valueAt(this.rowLines[row], cursors[index]))));
  }
}
