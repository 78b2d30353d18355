// Syntax colouring of assembly source.

import { tokenizeLine } from "../../core/text/assembly.js";

/** @type {Record<string, string>} the style class of each token kind */
const STYLES = {
  comment: "comment", label: "def", instruction: "keyword", directive: "keyword", register: "atom", number: "number", name: "variable-2",
  unknown: "error",
};

/**
 * @param {Set<string>} mnemonics the mnemonics of all instructions, in upper case
 * @returns {import("./line_colours.js").Colours}
 */
export function makeAssemblyColours(mnemonics) {
  return (line) => tokenizeLine(line, (word) => mnemonics.has(word)).map(({ from, to, kind }) => ({ from, to, style: STYLES[kind] }));
}
