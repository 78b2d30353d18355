// The description of the word at the pointer or the caret, below the text: the word's meaning, and its current values in editable cells. A
// tooltip at the pointer also shows the values.

import { element } from "../ui/dom.js";
import { placeBelow } from "../ui/popup_message.js";
import { joinPieces } from "../../core/debug/word_values.js";
import * as say from "../../words/text.js";

/**
 * @typedef {import("../../core/debug/word_values.js").Piece} Piece
 * @typedef {import("../../core/debug/word_values.js").EditableValue} EditableValue
 * @typedef {(cell: HTMLElement, value: EditableValue) => void} MakeEditable makes a cell editable
 */

/** The distance in pixels between the pointer and the tooltip. */
const POINTER_DISTANCE = 16;

/**
 * Returns a string that identifies the layout of a description, regardless of the values in it. Descriptions with the same layout reuse the
 * same cells.
 * @param {Piece[]} pieces
 */
function layoutKeyOf(pieces) {
  return pieces.map((piece) => (typeof piece === "string" ? piece : piece.place)).join("\n");
}

export class MeaningView {
  /** @param {MakeEditable} makeEditable */
  constructor(makeEditable) {
    this.makeEditable = makeEditable;
    this.valuesNode = element("span", { className: "values" });
    this.meaningNode = element("span");
    this.node = element("p", { className: "meaning" }, this.valuesNode, this.meaningNode);
    this.tooltip = element("p", { className: "value-tip", hidden: true });
    this.tooltip.setAttribute("aria-hidden", "true");
    document.body.append(this.tooltip);
    this.layoutKey = "";
    /** @type {HTMLElement[]} */
    this.cells = [];
  }

  /**
   * @param {Piece[]} pieces the word's current values
   * @param {string} meaning the word's meaning
   */
  showMeaning(pieces, meaning) {
    const layoutKey = layoutKeyOf(pieces);
    if (layoutKey !== this.layoutKey) {
      this.layoutKey = layoutKey;
      this.cells = [];
      this.valuesNode.replaceChildren(...pieces.map((piece) => (typeof piece === "string" ? piece : this.makeCell(piece))));
    }
    const values = pieces.flatMap((piece) => (typeof piece === "string" ? [] : [piece.value]));
    this.cells.forEach((cell, index) => {
      if (cell.textContent !== values[index]) cell.textContent = values[index];
    });
    const valueText = joinPieces(pieces);
    const description = valueText === "" ? meaning : meaning === "" || valueText.startsWith(meaning) ? "" : `. ${meaning}`;
    if (this.meaningNode.textContent !== description) this.meaningNode.textContent = description;
  }

  /** @param {EditableValue} value */
  makeCell(value) {
    const cell = element("button", { "type": "button", "className": "value", "title": say.editHint(value.name) });
    cell.setAttribute("aria-label", value.name);
    cell.textContent = value.value;
    this.makeEditable(cell, value);
    this.cells.push(cell);
    return cell;
  }

  /**
   * Shows values in a tooltip at the pointer.
   * @param {Piece[]} pieces the values; an empty list hides the tooltip
   * @param {{ left: number, top: number }} point window coordinates
   */
  showTooltip(pieces, { left, top }) {
    this.tooltip.textContent = joinPieces(pieces);
    this.tooltip.hidden = pieces.length === 0;
    if (pieces.length > 0) placeBelow(this.tooltip, { left, bottom: top }, POINTER_DISTANCE);
  }

  hideTooltip() {
    if (!this.tooltip.hidden) this.tooltip.hidden = true;
  }
}
