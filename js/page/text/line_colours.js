// Syntax colouring of the visible lines. The colouring of a line depends only on that line.

import { Decoration, ViewPlugin } from "@codemirror/view";

/**
 * @typedef {import("@codemirror/view").EditorView} View
 *
 * A coloured range in a line, with its style class. The ranges of a line are in order.
 * @typedef {{ from: number, to: number, style: string }} ColouredRange
 * @typedef {(line: string) => ColouredRange[]} Colours returns the coloured ranges of a line
 */

/** @type {Map<string, Decoration>} the CodeMirror decoration of each style class */
const decorationsByStyle = new Map();

/** @param {string} style */
function decorationOfStyle(style) {
  const decoration = decorationsByStyle.get(style) || Decoration.mark({ class: `cm-${style}` });
  decorationsByStyle.set(style, decoration);
  return decoration;
}

/**
 * @param {View} view
 * @param {Colours} colours
 */
function colourLines({ state: { doc }, visibleRanges }, colours) {
  /** @type {import("@codemirror/state").Range<Decoration>[]} */
  const ranges = [];
  for (const { from, to } of visibleRanges) {
    for (let offset = from; offset <= to;) {
      const line = doc.lineAt(offset);
      for (const range of colours(line.text)) {
        if (range.to > range.from) ranges.push(decorationOfStyle(range.style).range(line.from + range.from, line.from + range.to));
      }
      offset = line.to + 1;
    }
  }
  return Decoration.set(ranges, true);
}

/**
 * Returns the CodeMirror plugin that colours the visible lines.
 * @param {Colours} colours
 */
export function makeLineColours(colours) {
  return ViewPlugin.define((view) => ({
    decorations: colourLines(view, colours),
    update(/** @type {import("@codemirror/view").ViewUpdate} */ update) {
      if (update.docChanged || update.viewportChanged) this.decorations = colourLines(update.view, colours);
    },
  }), { decorations: (plugin) => plugin.decorations });
}
