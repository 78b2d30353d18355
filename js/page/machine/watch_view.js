// The watch list: expressions with their names and current values. The values can be edited in place.

import { Cell, block, findDescendant, element, field, onClick } from "../ui/dom.js";
import { MAX_WATCH_EXPRESSIONS, parseWatches, parseWatch } from "../../core/debug/watch_expressions.js";
import * as say from "../../words/machine.js";

/**
 * @typedef {import("../../core/debug/machine_state.js").MachineState} MachineState
 * @typedef {import("../../core/debug/watch_expressions.js").WatchExpression} WatchExpression
 * @typedef {import("../../core/conditions/condition_language.js").Names} Names
 * @typedef {{ root: HTMLLIElement, valuesNode: HTMLElement, layoutKey: string, cells: Cell[] }} Row `layoutKey`: the row's fixed text and
 *   the locations of its values, to detect when the row needs other cells
 */

/**
 * The callbacks of the watch list.
 * @typedef {object} WatchViewCalls
 * @property {import("../text/meaning_view.js").MakeEditable} makeEditable Makes a cell that shows a value editable.
 * @property {() => MachineState | null} pausedState Returns the paused machine state, from which the values are read, or null while time is
 *   running.
 * @property {() => Names} names Returns the names that expressions can use.
 * @property {() => void} handleListChange Called after the list has changed.
 * @property {(texts: string[]) => void} storeExpressions Saves the expressions as strings.
 */

export class WatchView {
  /** @param {WatchViewCalls} calls */
  constructor(calls) {
    this.calls = calls;
    this.list = block("watched-list");
    this.status = block("watched-status");
    /** @type {WatchExpression[]} */
    this.expressions = [];
    /** @type {Row[]} */
    this.rows = [];
    // The field is not in a form, because Firefox would search each text field of a form for a user name and delay the start of the page.
    field("watched-field").addEventListener("keydown", ({ key, isComposing }) => {
      if (key === "Enter" && !isComposing) this.addTypedExpression();
    });
    onClick(findDescendant(block("watched-form"), "button", HTMLButtonElement), () => this.addTypedExpression());
  }

  /** @param {unknown} texts the expressions that were saved with a session, not yet validated */
  open(texts) {
    const { watches: expressions, error } = parseWatches(texts);
    this.status.textContent = error;
    this.setExpressions(expressions);
  }

  addTypedExpression() {
    const input = field("watched-field");
    const { watch: expression, error } = parseWatch(input.value, this.calls.names());
    const isFull = this.expressions.length >= MAX_WATCH_EXPRESSIONS;
    this.status.textContent = isFull ? say.tooManyWatchesMessage(MAX_WATCH_EXPRESSIONS) : error;
    input.setAttribute("aria-invalid", String(this.status.textContent !== ""));
    if (!expression || isFull) return;
    input.value = "";
    this.setExpressions([...this.expressions.filter(({ name }) => name !== expression.name), expression]);
    this.storeAll();
  }

  storeAll() {
    this.calls.storeExpressions(this.expressions.map(({ text }) => text));
  }

  /** @param {WatchExpression[]} expressions */
  setExpressions(expressions) {
    this.expressions = expressions;
    this.rows = expressions.map((expression) => this.makeRow(expression));
    this.list.replaceChildren(...this.rows.map(({ root }) => root));
    this.calls.handleListChange();
    this.show();
  }

  /**
   * @param {WatchExpression} expression
   * @returns {Row}
   */
  makeRow(expression) {
    const valuesNode = element("span", { className: "values" }, element("small", {}, say.WHEN_PAUSED));
    const title = say.stopWatching(expression.name);
    const removeButton = element("button", { "type": "button", "className": "remove", title }, "\u00D7");
    removeButton.setAttribute("aria-label", title);
    onClick(removeButton, () => {
      this.setExpressions(this.expressions.filter((entry) => entry !== expression));
      this.storeAll();
    });
    const root = element("li", { title: expression.text }, element("b", {}, expression.name), " ", valuesNode, " ", removeButton);
    return { root, valuesNode, layoutKey: "", cells: [] };
  }

  /** Shows the current values. While time is running, the last values stay. */
  show() {
    const state = this.calls.pausedState();
    if (!state) return;
    const names = this.calls.names();
    this.expressions.forEach((expression, index) => this.showRow(this.rows[index], expression, expression.readPieces(state, names)));
  }

  /**
   * @param {Row} row
   * @param {WatchExpression} expression
   * @param {import("../../core/debug/word_values.js").Piece[]} pieces the expression's current value: fixed text and editable values
   */
  showRow(row, expression, pieces) {
    const layoutKey = pieces.map((piece) => (typeof piece === "string" ? piece : piece.place)).join("\n");
    const values = pieces.flatMap((piece) => (typeof piece === "string" ? [] : [piece]));
    if (layoutKey !== row.layoutKey) {
      row.layoutKey = layoutKey;
      row.cells = [];
      row.valuesNode.replaceChildren(...pieces.map((piece) => {
        if (typeof piece === "string") return piece;
        const label = `${expression.name}, ${piece.name}`;
        const cell = new Cell(element("button", { "type": "button", "className": "value", "aria-label": label }));
        cell.set(piece.value);
        this.calls.makeEditable(cell.node, piece);
        row.cells.push(cell);
        return cell.node;
      }));
      return;
    }
    row.cells.forEach((cell, index) => {
      cell.node.classList.toggle("changed", cell.set(values[index].value));
    });
  }
}
