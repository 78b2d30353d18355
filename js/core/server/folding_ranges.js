// Finds the folding ranges of a text, in the protocol's format.

import { findFoldEnd } from "../text/folding.js";

/**
 * @typedef {import("../text/folding.js").FoldPatterns} FoldPatterns
 * @typedef {{ startLine: number, endLine: number, kind?: "comment" }} Fold
 */

/**
 * Returns the folding ranges of a text.
 * @param {string[]} lines
 * @param {FoldPatterns} patterns
 * @returns {Fold[]}
 */
export function findFolds(lines, patterns) {
  const lineAt = (/** @type {number} */ line) => lines[line];
  return lines.flatMap((text, startLine) => {
    const endLine = findFoldEnd(lineAt, startLine, patterns);
    if (endLine === startLine) return [];
    const isComment = text.trimStart().startsWith(patterns.mark);
    return [isComment ? { startLine, endLine, kind: /** @type {const} */ ("comment") } : { startLine, endLine }];
  });
}
