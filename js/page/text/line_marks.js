// Marks at the lines of a text editor: text in the gutters, and the mark of the next instruction. Marks move with their lines during edits.
// New marks of a kind replace the previous marks of that kind.

import { indices } from "../../core/bench/numbers.js";

/**
 * @typedef {import("./line_editor.js").LineEditor} LineEditor
 */

export class LineMarks {
  /** @param {LineEditor} editor */
  constructor(editor) {
    this.editor = editor;
    /** @type {Set<string>} the gutters that have been used */
    this.usedGutters = new Set();
  }

  /** Removes all marks before the editor shows another text. */
  clear() {
    for (const gutter of this.usedGutters) this.editor.showMarks(gutter, []);
    this.usedGutters.clear();
    this.showNextInstruction(0);
  }

  /**
   * Shows text in a gutter.
   * @param {string} gutter
   * @param {(line: number) => string} getText returns the text to show at a line (counted from 1), or ""
   * @param {(line: number) => string} [getDescription] returns the description of the text
   */
  showTexts(gutter, getText, getDescription = () => "") {
    const marks = indices(this.editor.lineCount()).flatMap((line) => {
      const text = getText(line + 1);
      return text ? [{ line, text, description: getDescription(line + 1) }] : [];
    });
    this.editor.showMarks(gutter, marks);
    this.usedGutters.add(gutter);
  }

  /**
   * Marks the line of the next instruction.
   * @param {number} line the line number from 1, or 0 to mark no line
   */
  showNextInstruction(line) {
    this.editor.showLineStyle("next", line > 0 && line <= this.editor.lineCount() ? [line - 1] : []);
  }
}
