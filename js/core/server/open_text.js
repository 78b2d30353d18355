// A text that is open in an editor.

/**
 * @typedef {import("./lsp_protocol.js").Position} Position
 * @typedef {import("./lsp_protocol.js").Range} Range
 * @typedef {import("../text/sendable_text.js").TextError} TextError
 */

const LINE_END = /\r\n|\r|\n/;

export class OpenText {
  /**
   * @param {string} uri
   * @param {string} language the language id in the editor
   * @param {string} text
   * @param {number | null} version
   */
  constructor(uri, language, text, version) {
    this.uri = uri;
    this.language = language;
    this.version = version;
    this.lines = text.split(LINE_END);
    /** The number of edits so far. The server also adds 1 when the text must be checked again. */
    this.editCount = 0;
    /** @type {{ text: string, editCount: number } | null} the last result of the getter `text`, and the number of edits before it */
    this.cachedText = null;
  }

  /** The number of characters. */
  get length() {
    return this.lines.reduce((count, { length }) => count + length + 1, -1);
  }

  /** The text, with line feeds between its lines. */
  get text() {
    const { editCount } = this;
    if (!this.cachedText || this.cachedText.editCount !== editCount) this.cachedText = { text: this.lines.join("\n"), editCount };
    return this.cachedText.text;
  }

  /**
   * Returns the position itself if it is in the text, or else the nearest position in the text.
   * @param {Position} position
   * @returns {Position}
   */
  clampPosition({ line, character }) {
    const lastLine = this.lines.length - 1;
    if (line > lastLine) return { line: lastLine, character: this.lines[lastLine].length };
    return { line, character: Math.min(character, this.lines[line].length) };
  }

  /**
   * Replaces the text in a range.
   * @param {Range | null} range the range to replace; null to replace the whole text
   * @param {string} text the new text
   */
  edit(range, text) {
    const addedLines = text.split(LINE_END);
    this.editCount += 1;
    if (!range) {
      this.lines = addedLines;
      return;
    }
    const [start, end] = [this.clampPosition(range.start), this.clampPosition(range.end)];
    const isReversed = end.line < start.line || (end.line === start.line && end.character < start.character);
    const [first, last] = isReversed ? [end, start] : [start, end];
    addedLines[0] = this.lines[first.line].slice(0, first.character) + addedLines[0];
    addedLines[addedLines.length - 1] += this.lines[last.line].slice(last.character);
    this.lines = [...this.lines.slice(0, first.line), ...addedLines, ...this.lines.slice(last.line + 1)];
  }
}
