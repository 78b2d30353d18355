// The cycle counter. It shows the cycles since the last reset, the cycles of the current or last run, and the cycles since the last marker
// or between two markers.

import { Cycles, formatCycles } from "../../core/time/cycles.js";
import { Cell, block, element, onClick } from "../ui/dom.js";
import * as say from "../../words/time.js";

/** @typedef {import("../../core/time/cycles.js").StoredCycles} StoredCycles */

/** The interval in milliseconds between updates while time is running. */
const SHOW_INTERVAL_MS = 250;

export class CyclesView {
  /** @param {() => void} onMark called after the user has set a marker */
  constructor(onMark) {
    this.cycles = new Cycles();
    this.lastShowTime = 0;
    this.resetCell = new Cell(element("b"));
    this.stopCell = new Cell(element("b"));
    this.markLabel = new Cell(element("span"));
    this.cyclesSinceMark = new Cell(element("b"));
    const title = say.SET_MARKER_HINT;
    const markButton = element("button", { id: "mark", type: "button", title }, say.SET_MARKER);
    onClick(markButton, () => {
      this.cycles.addMark();
      this.show();
      onMark();
    });
    const root = block("cycles");
    root.replaceChildren(
      element("span", { title: say.SINCE_RESET_TOOLTIP }, say.SINCE_RESET, this.resetCell.node),
      element("span", { title: say.IN_LAST_RUN }, say.SINCE_PAUSE, this.stopCell.node),
      element("span", {}, markButton, " ", this.markLabel.node, this.cyclesSinceMark.node),
    );
    root.hidden = false;
  }

  /**
   * Shows the counts of another session.
   * @param {StoredCycles | undefined} storedCycles
   */
  open(storedCycles) {
    this.cycles = new Cycles(storedCycles);
    this.show();
  }

  /**
   * @param {{ total: number, reset: number }} counts
   * @param {boolean} isRunning true if time is running
   */
  update(counts, isRunning) {
    this.cycles.update(counts);
    if (isRunning && performance.now() - this.lastShowTime < SHOW_INTERVAL_MS) return;
    if (!isRunning) this.cycles.recordPause();
    this.show();
  }

  show() {
    this.lastShowTime = performance.now();
    const { sinceReset, sinceStop, marked } = this.cycles.counts;
    this.resetCell.set(formatCycles(sinceReset));
    this.stopCell.set(formatCycles(sinceStop));
    this.markLabel.set(marked === null ? "" : this.cycles.marks.length === 1 ? say.SINCE_MARK : say.BETWEEN_MARKS);
    this.cyclesSinceMark.set(marked === null ? "" : formatCycles(marked));
  }
}
