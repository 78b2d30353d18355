// Code folding: hides the lines below a heading or a label, by a click in the margin or with keys.

import { formatQuantity } from "../../core/bench/numbers.js";
import { element } from "../ui/dom.js";
import { codeFolding, foldAll, foldCode, foldGutter, foldService, foldedRanges, unfoldAll, unfoldEffect } from "@codemirror/language";
import { findFoldStart, findFoldEnd } from "../../core/text/folding.js";
import * as say from "../../words/text.js";

/**
 * @typedef {import("./line_editor.js").LineEditor} LineEditor
 * @typedef {import("../../core/text/folding.js").FoldPatterns} FoldPatterns
 */

/**
 * Returns the function through which folding.js reads a document. The function takes a line number, counted from 0, and returns the line's
 * text, or undefined if there is no such line.
 * @param {import("@codemirror/state").Text} doc
 * @returns {import("../../core/text/folding.js").LineAt}
 */
function makeLineReader(doc) {
  return (line) => (line < doc.lines ? doc.line(line + 1).text : undefined);
}

/**
 * Returns the element that replaces folded lines and shows their number.
 * @param {number} count the number of folded lines
 * @param {(event: Event) => void} unfoldRange
 */
function makePlaceholder(count, unfoldRange) {
  const node = element("span", { className: "folded-lines", title: say.UNFOLD_HINT }, `… ${formatQuantity(count, "line")}`);
  node.addEventListener("click", unfoldRange);
  return node;
}

/**
 * Returns the CodeMirror extensions for code folding in a kind of text.
 * @param {FoldPatterns} patterns the patterns of the text's foldable ranges
 */
export function makeFolding(patterns) {
  return [
    foldService.of(({ doc }, from) => {
      const { number, to } = doc.lineAt(from);
      const lastLine = findFoldEnd(makeLineReader(doc), number - 1, patterns) + 1;
      return lastLine === number ? null : { from: to, to: doc.line(lastLine).to };
    }),
    codeFolding({
      preparePlaceholder: ({ doc }, { from, to }) => doc.lineAt(to).number - doc.lineAt(from).number,
      placeholderDOM: (_, unfoldRange, count) => makePlaceholder(count, unfoldRange),
    }),
    foldGutter({ markerDOM: (isOpen) => element("span", { className: isOpen ? "fold-open" : "fold-closed" }) }),
  ];
}

/**
 * Returns the folding commands for a kind of text.
 * @param {FoldPatterns} patterns the patterns of the text's foldable ranges
 */
export function makeFoldingActions(patterns) {
  return {
    /** @param {LineEditor} editor */
    fold: (editor) => {
      const headLine = findFoldStart(makeLineReader(editor.doc), editor.getCursor().line, patterns);
      if (headLine < 0) return;
      editor.setCursor({ line: headLine, ch: Infinity });
      foldCode(editor.view);
    },
    /** @param {LineEditor} editor */
    unfold: (editor) => unfold(editor, editor.getCursor().line),
    foldAll: foldAllRanges,
    /** @param {LineEditor} editor */
    unfoldAll: (editor) => void unfoldAll(editor.view),
  };
}

/**
 * Folds all foldable ranges. First moves the caret to the beginning of its line.
 * @param {LineEditor} editor
 */
function foldAllRanges(editor) {
  editor.setCursor({ line: editor.getCursor().line, ch: 0 });
  foldAll(editor.view);
}

/**
 * Unfolds each folded range that contains a line.
 * @param {LineEditor} editor
 * @param {number} line from 0
 */
export function unfold({ view, doc }, line) {
  if (line < 0 || line >= doc.lines) return;
  const docLine = doc.line(line + 1);
  /** @type {import("@codemirror/state").StateEffect<any>[]} */
  const effects = [];
  foldedRanges(view.state).between(docLine.from, docLine.to, (from, to) => void effects.push(unfoldEffect.of({ from, to })));
  if (effects.length > 0) view.dispatch({ effects });
}
