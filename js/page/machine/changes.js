// Marks the values that have changed since the previous pause. No value is marked while time is running, because the marks would flicker.

/** @typedef {import("../ui/dom.js").Cell} Cell */

export class Changes {
  constructor() {
    /** @type {Map<Cell, string>} the text of each cell at the last pause */
    this.textsAtPause = new Map();
    /** @type {Set<Cell>} */
    this.markedCells = new Set();
  }

  /**
   * Shows a value. The first value of a cell is not marked as a change.
   * @param {Cell} cell
   * @param {string} text
   */
  set(cell, text) {
    if (!this.textsAtPause.has(cell)) this.textsAtPause.set(cell, text);
    cell.set(text);
  }

  /** Clears the marks of changed values. Called for each snapshot while time is running. */
  clearWhileRunning() {
    if (this.markedCells.size > 0) this.clear();
  }

  /** Marks the changed values. Called for each snapshot while time is paused. If nothing has changed, the earlier marks stay. */
  markWhilePaused() {
    const changedCells = [...this.textsAtPause].filter(([cell, oldText]) => cell.text !== oldText).map(([cell]) => cell);
    if (changedCells.length === 0) return;
    this.clear();
    for (const cell of changedCells) {
      this.textsAtPause.set(cell, cell.text);
      this.markedCells.add(cell);
      cell.node.classList.add("changed");
    }
  }

  clear() {
    for (const cell of this.markedCells) cell.node.classList.remove("changed");
    this.markedCells.clear();
  }

  /** Forgets all cells, because the page is about to replace them. */
  forgetCells() {
    this.clear();
    this.textsAtPause.clear();
  }
}
