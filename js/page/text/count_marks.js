// Execution counts of source lines, in the margin of the source. An edit removes the counts, because they apply only to the source that was
// tested.

import * as say from "../../words/text.js";

/**
 * @typedef {import("./line_editor.js").LineEditor} LineEditor
 * @typedef {import("../../core/testing/coverage.js").LineCoverage} LineCoverage
 */

/**
 * Returns the text in the margin of a line: its execution count, or "never". For a conditional jump, the text also says how often it jumped
 * and how often it did not.
 * @param {LineCoverage} lineCoverage
 */
export function formatCount({ count, isJump, jumpCount }) {
  if (count === 0) return "never";
  return isJump ? `${count} ${jumpCount}/${count - jumpCount}` : String(count);
}

/** @param {number} number */
function formatTimes(number) {
  return say.countText(number);
}

/**
 * Returns a sentence about a line's execution count.
 * @param {LineCoverage} lineCoverage
 */
export function describeCount({ count, isJump, jumpCount }) {
  if (count === 0) return say.NO_TEST_RUNS;
  return say.runCountText(formatTimes(count)) + (isJump ? say.jumpCountsText(formatTimes(jumpCount), formatTimes(count - jumpCount)) : "");
}

export class CountMarks {
  /**
   * @param {LineEditor} editor
   * @param {import("./line_marks.js").LineMarks} marks
   */
  constructor(editor, marks) {
    this.editor = editor;
    this.marks = marks;
    this.isShown = false;
    editor.onEdit(() => this.clear());
  }

  /** @param {LineCoverage[]} coverage the execution counts of lines */
  show(coverage) {
    this.clear();
    const coverageByLine = new Map(coverage.map((entry) => [entry.line, entry]));
    const { editor } = this;
    this.isShown = true;
    const maxLength = Math.max(...coverage.map((entry) => formatCount(entry).length), 1);
    editor.container.classList.add("counted");
    editor.container.style.setProperty("--counts-width", `${maxLength + 1}ch`);
    this.marks.showTexts("counts", (line) => formatEntry(coverageByLine.get(line), formatCount),
      (line) => formatEntry(coverageByLine.get(line), describeCount));
    // Highlight lines that were never executed, and jumps that were always or never taken.
    const incompleteLines = coverage.filter(({ count, isJump, jumpCount }) => (
      count === 0 || (isJump && (jumpCount === 0 || jumpCount === count))));
    editor.showLineStyle("lacking", incompleteLines.map(({ line }) => line - 1).filter((line) => line <= editor.lastLine()));
    editor.refresh();
  }

  clear() {
    if (!this.isShown) return;
    const { editor } = this;
    this.isShown = false;
    editor.container.classList.remove("counted");
    this.marks.showTexts("counts", () => "");
    editor.showLineStyle("lacking", []);
    editor.refresh();
  }
}

/**
 * @param {LineCoverage | undefined} lineCoverage
 * @param {(lineCoverage: LineCoverage) => string} format
 */
function formatEntry(lineCoverage, format) {
  return lineCoverage ? format(lineCoverage) : "";
}
