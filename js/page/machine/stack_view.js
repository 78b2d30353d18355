// The call stack: the program counter and the return addresses. While time is paused, each address has its name and its source line.

import { Cell, Switch, block, element, makeFirstTabStop, makeOneTabStop, onClick } from "../ui/dom.js";
import { joinLines, matchAnswers, readInputs } from "../../core/bench/inputs.js";
import { hex } from "../../core/bench/numbers.js";
import { findLiveReturns, addressOfCall, describeProgramCounter, describeReturn } from "../../core/machine/return_addresses.js";
import * as say from "../../words/machine.js";

/**
 * @typedef {import("../../core/bench/answers.js").Registers} Registers
 * @typedef {import("./changes.js").Changes} Changes
 * @typedef {import("../../core/machine/return_addresses.js").AddressNote} AddressNote
 * @typedef {import("../../core/machine/source_map.js").SourceMap} SourceMap
 * @typedef {{ button: HTMLButtonElement, value: Cell, note: Cell, liveSwitch: Switch }} Row a row of the call stack; `liveSwitch` is off if
 *   the row's return address is stale
 */

/** The columns of the first ROM byte in a line of the bench's answer to `list`. The end is exclusive. */
const FIRST_BYTE_COLUMN = 4;
const FIRST_BYTE_END_COLUMN = 6;

export class StackView {
  /**
   * @param {Changes} changes
   * @param {(name: string) => string} explain returns the description of a cell
   * @param {(lines: string) => Promise<string[]>} ask resolves to the bench's answers to queries
   * @param {(address: number) => void} goTo shows an address in the program
   */
  constructor(changes, explain, ask, goTo) {
    this.changes = changes;
    this.ask = ask;
    /** @type {number[]} the program counter, then the return addresses, newest first */
    this.addresses = [];
    /** The addresses that the current notes describe, separated by spaces. */
    this.describedAddresses = "";
    /** @type {SourceMap | null} */
    this.map = null;
    /** The number of requests so far. An answer is discarded if it arrives after a later request. */
    this.requestCount = 0;
    this.rows = ["pc", "ret 1", "ret 2", "ret 3"].map((name, index) => (
      this.makeRow(name, explain(name), () => goTo(this.rowAddress(index)))));
    const root = element("div", { className: "stack" }, ...this.rows.map((row) => row.button));
    root.setAttribute("role", "group");
    root.setAttribute("aria-label", say.COUNTER_AND_RETURNS);
    makeOneTabStop(root, () => 1);
    makeFirstTabStop(root);
    block("call-stack").append(root);
  }

  /**
   * @param {string} name
   * @param {string} title the tooltip of the row's name
   * @param {() => void} action
   * @returns {Row}
   */
  makeRow(name, title, action) {
    const value = new Cell(element("span", { className: "value" }));
    const note = new Cell(element("span", { className: "note" }));
    const head = element("span", { className: "name", title }, name);
    const button = element("button", { type: "button" }, head, value.node, note.node);
    onClick(button, action);
    return { button, value, note, liveSwitch: new Switch((isLive) => button.classList.toggle("left-over", !isLive)) };
  }

  /**
   * Returns the address that a click on a row shows: the program counter, or the address of the call that pushed the return address. For a
   * stale return address, returns that address itself.
   * @param {number} index
   */
  rowAddress(index) {
    const address = this.addresses[index] || 0;
    return index > 0 && this.rows[index].liveSwitch.isOn ? addressOfCall(address) : address;
  }

  /** @param {Registers} registers */
  show(registers) {
    const addressTexts = [registers.counter, ...registers.returns];
    addressTexts.forEach((addressText, index) => this.changes.set(this.rows[index].value, addressText));
    this.addresses = addressTexts.map((addressText) => parseInt(addressText, 16));
  }

  /** Makes the next call of `updateNotes` read ROM again, because the contents of ROM may have changed. */
  invalidateNotes() {
    this.describedAddresses = "";
  }

  /**
   * Describes the addresses while time is paused. Removes the notes while time is running.
   * @param {SourceMap | null} map the source map of the program in ROM; null if ROM does not match the source
   * @param {boolean} isRunning
   */
  async updateNotes(map, isRunning) {
    if (isRunning) {
      this.clear();
      return;
    }
    const addressKey = this.addresses.join(" ");
    if (addressKey === this.describedAddresses && map === this.map) return;
    this.describedAddresses = addressKey;
    this.map = map;
    this.requestCount += 1;
    const { requestCount } = this;
    const [counter, ...returns] = this.addresses;
    const bytes = await this.readBytes(returns.map(addressOfCall));
    if (requestCount !== this.requestCount) return;
    const liveFlags = findLiveReturns(returns, bytes, map);
    const returnNotes = returns.map((address, index) => describeReturn(address, liveFlags[index], map));
    this.showNotes([describeProgramCounter(counter, map), ...returnNotes]);
  }

  clear() {
    this.describedAddresses = "";
    this.requestCount += 1;
    for (const { note, liveSwitch } of this.rows) {
      note.set("");
      liveSwitch.set(true);
    }
  }

  /** @param {number[]} addresses */
  async readBytes(addresses) {
    const lines = joinLines(addresses.map((address) => `list 0x${hex(address, 3)} 1`));
    const answers = matchAnswers(readInputs(lines), await this.ask(lines));
    return answers.map(([line = ""]) => line.slice(FIRST_BYTE_COLUMN, FIRST_BYTE_END_COLUMN));
  }

  /** @param {AddressNote[]} notes */
  showNotes(notes) {
    notes.forEach(({ isLive, description, title }, index) => {
      const row = this.rows[index];
      row.note.set(description);
      row.liveSwitch.set(isLive);
      if (row.button.title !== title) row.button.title = title;
    });
  }
}
