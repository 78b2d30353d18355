// The list of common mistakes that the bench has reported since time last resumed. Each row has the line of the mistake, and a check box
// that makes the bench pause time at the next mistake of this kind.

import { block, element, onClick } from "../ui/dom.js";
import { MISTAKE_KINDS } from "../../words/debug.js";
import * as say from "../../words/machine.js";

/**
 * @typedef {import("../../core/debug/common_mistakes.js").Kind} Kind
 * @typedef {import("../../core/debug/common_mistakes.js").CommonMistake} CommonMistake
 */

/**
 * The callbacks of the list of common mistakes.
 * @typedef {object} MistakesCalls
 * @property {(address: number) => string} describeAddress Returns an address with its name and its source line, as text.
 * @property {(address: number) => void} goTo Shows an address in the source and in the disassembly.
 * @property {(kinds: Kind[]) => void} stopAtMistakes Asks the bench to pause time at mistakes of these kinds.
 * @property {(count: number) => void} showCount Reports the number of mistakes in the list.
 * @property {() => string} storedKinds Returns the kinds that `storeKinds` stored last, or "".
 * @property {(kinds: string) => void} storeKinds Stores the chosen kinds, separated by spaces.
 */

export class MistakesView {
  /** @param {MistakesCalls} calls */
  constructor(calls) {
    this.calls = calls;
    this.block = block("usual");
    this.list = block("usual-list");
    const storedKinds = calls.storedKinds().split(" ");
    /** @type {Set<Kind>} the kinds of mistakes that pause time */
    this.stopKinds = new Set(/** @type {Kind[]} */ (Object.keys(MISTAKE_KINDS)).filter((kind) => storedKinds.includes(kind)));
  }

  /**
   * Clears the list when time resumes or another session is opened. Sends the chosen kinds to the bench again, because a new worker does
   * not know them.
   */
  clear() {
    this.calls.stopAtMistakes([...this.stopKinds]);
    this.block.hidden = true;
    this.list.replaceChildren();
    this.calls.showCount(0);
  }

  /** @param {CommonMistake[]} mistakes */
  show(mistakes) {
    if (mistakes.length === 0) return;
    this.list.append(...mistakes.map((mistake) => this.makeRow(mistake)));
    this.block.hidden = false;
    this.calls.showCount(this.list.children.length);
  }

  /** @param {CommonMistake} mistake */
  makeRow({ kind, address, message }) {
    const button = element("button", { type: "button", className: "place" }, this.calls.describeAddress(address));
    onClick(button, () => this.calls.goTo(address));
    const stopCheckBox = element("input", { type: "checkbox", checked: this.stopKinds.has(kind), autocomplete: "off" });
    stopCheckBox.addEventListener("change", () => this.setStopKind(kind, stopCheckBox.checked));
    const label = element("label", { className: "check", title: say.stopsBefore(MISTAKE_KINDS[kind]) }, stopCheckBox, say.BREAK_ON_THIS);
    return element("li", {}, element("span", { className: "words" }, button, ` ${message}`), label);
  }

  /**
   * @param {Kind} kind
   * @param {boolean} shouldStop
   */
  setStopKind(kind, shouldStop) {
    if (shouldStop) this.stopKinds.add(kind);
    else this.stopKinds.delete(kind);
    this.calls.storeKinds([...this.stopKinds].join(" "));
    this.calls.stopAtMistakes([...this.stopKinds]);
  }
}
