// The printed page: the current state of the lamps, and the complete text of the source and of the board. The editors themselves cannot be
// printed, because they contain only their visible lines.

import { block, element } from "./ui/dom.js";
import * as say from "../words/page.js";

/** @typedef {{ name: string, board: string, program: string }} PrintContents */

export class PrintView {
  /** @param {() => PrintContents} readContents returns the contents to print */
  constructor(readContents) {
    this.readContents = readContents;
    this.block = block("print");
    addEventListener("beforeprint", () => this.fill());
    addEventListener("afterprint", () => this.block.replaceChildren());
    // Some browsers report a print preview only as a change of this media query.
    const printQuery = matchMedia("print");
    if (printQuery.addEventListener) printQuery.addEventListener("change", () => printQuery.matches && this.fill());
  }

  fill() {
    const { name, board, program } = this.readContents();
    this.block.replaceChildren(...makeTextNodes(say.sourceTitle(name), program), ...makeTextNodes(say.boardTitle(name), board));
  }
}

/**
 * @param {string} title
 * @param {string} text
 */
function makeTextNodes(title, text) {
  const lines = text.replace(/\n$/, "").split("\n").map((line) => element("li", {}, element("code", {}, line)));
  return text === "" ? [] : [element("h2", {}, title), element("ol", {}, ...lines)];
}
