// Grey text after a source line: the values that the line has changed. The text is not part of the source, but moves with its line.

import { makeTextAfterLine } from "./line_layers.js";

export class LineValues {
  /** @param {import("./line_editor.js").LineEditor} editor */
  constructor(editor) {
    this.editor = editor;
    /** @type {ReadonlyMap<number, string>} */
    this.shownLines = new Map();
  }

  /** @param {ReadonlyMap<number, string>} lines the text after each line, by line number from 1 */
  show(lines) {
    if (lines === this.shownLines || (lines.size === 0 && this.shownLines.size === 0)) return;
    this.shownLines = lines;
    const { editor } = this;
    const shownEntries = [...lines].filter(([line, text]) => text !== "" && line <= editor.lineCount());
    editor.showValues(shownEntries.map(([line, text], index) => {
      const className = index === shownEntries.length - 1 ? "line-values last" : "line-values";
      return makeTextAfterLine(text, className).range(editor.offset({ line: line - 1, ch: Infinity }));
    }));
  }
}
