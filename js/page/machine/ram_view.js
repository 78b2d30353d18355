// The board's RAM as a table for each bank. All nibbles can be edited in place. A click on a nibble of main memory sets or clears a watch
// on this nibble. Status characters cannot be watched.

import { Cell, block, byId, element, makeFirstTabStop, makeOneTabStop, makePressedSwitch } from "../ui/dom.js";
import { hex, indices } from "../../core/bench/numbers.js";
import { NIBBLES_PER_REGISTER, STATUS_CHARACTERS_PER_REGISTER } from "../../core/conditions/places.js";
import * as say from "../../words/machine.js";

/**
 * @typedef {import("../../core/bench/answers.js").Board} Board
 * @typedef {import("../../core/bench/answers.js").Ram} Ram
 * @typedef {import("./cell_editor.js").CellEditor} CellEditor
 * @typedef {import("./changes.js").Changes} Changes
 * @typedef {import("./heat_view.js").CellHeat} CellHeat
 * @typedef {import("../ui/dom.js").Switch} Switch
 * @typedef {{ bank: number, chip: number, register: number }} Register the location of a register
 * @typedef {{ nibbles: Cell[], statusCells: Cell[], names: HTMLElement, shownText: string }} ShownRegister
 */

/** @param {Register} register */
function describeRegister({ bank, chip, register }) {
  return say.registerOfChip(bank, chip, register);
}

/**
 * Returns the labels of a register's named nibbles, for example `A total`, and of its named status characters, for example `status 1 sign`.
 * @param {string} register the register as `bank.chip.register`
 * @param {ReadonlyMap<string, string[]>} names
 */
function makeNibbleLabels(register, names) {
  const [bank, chip, number] = register.split(".").map(Number);
  const registerIndex = chip * 4 + number;
  /** @type {(place: string, label: string) => string[]} */
  const prefixNames = (place, label) => (names.get(place) || []).map((name) => `${label} ${name}`);
  return [
    ...indices(NIBBLES_PER_REGISTER).flatMap((nibble) => (
      prefixNames(`ram.${bank}.0x${hex(registerIndex * NIBBLES_PER_REGISTER + nibble, 2)}`, hex(nibble, 1)))),
    ...indices(STATUS_CHARACTERS_PER_REGISTER).flatMap((index) => prefixNames(`st.${bank}.${registerIndex}.${index}`, `status ${index}`)),
  ];
}

/** The number of nibbles in a group, which stays on one line when the table wraps. */
const NIBBLES_PER_GROUP = NIBBLES_PER_REGISTER / 2;

/** @param {Cell[]} cells */
function makeNibbleGroup(cells) {
  return element("span", { className: "nibbles" }, ...cells.map(({ node }) => node));
}

export class RamView {
  /**
   * @param {Changes} changes
   * @param {CellEditor} editor
   * @param {(bank: number, srcByte: number, isWatched: boolean, cell: HTMLElement) => void} toggleWatch sets a watch on a nibble, or clears
   *   the watch if `isWatched` is true; `srcByte` is the nibble's SRC byte
   */
  constructor(changes, editor, toggleWatch) {
    this.changes = changes;
    this.editor = editor;
    this.toggleWatch = toggleWatch;
    /** @type {Map<string, Switch>} the watch marks of the nibbles, by the nibble's name in the bench's answers, for example `0.1F` */
    this.watchSwitches = new Map();
    /** @type {Map<string, ShownRegister>} the registers, by `bank.chip.register` */
    this.registers = new Map();
    /** @type {Map<string, { node: HTMLElement, title: string }>} the nibbles, by location in the syntax of the `poke` command */
    this.nibbles = new Map();
    /** @type {ReadonlyMap<string, string[]>} the names of nibbles, by the nibble's location */
    this.names = new Map();
    /** @type {ReadonlyMap<string, CellHeat>} the nibbles that the heat map colours, by the nibble's location */
    this.heatByPlace = new Map();
    /** @type {Map<string, Cell>} the value of each chip's output port, by `bank.chip` */
    this.ports = new Map();
    this.block = block("banks");
    /** @type {HTMLElement[]} the table of each bank */
    this.tables = [];
    this.bankSelect = byId("bank", HTMLSelectElement);
    this.bankSelect.addEventListener("change", () => this.showBank());
    makeOneTabStop(this.block, () => NIBBLES_PER_REGISTER + STATUS_CHARACTERS_PER_REGISTER);
  }

  /**
   * Draws a table for each bank that has chips.
   * @param {Board} board
   */
  draw(board) {
    this.watchSwitches.clear();
    this.registers.clear();
    this.nibbles.clear();
    this.ports.clear();
    this.heatByPlace = new Map();
    this.tables = board.banks.map((bank) => this.drawBank(bank));
    this.block.replaceChildren(...this.tables);
    this.showBankChoices(board.banks.map(({ bank }) => bank));
    block("memory-hint").hidden = board.banks.length === 0;
    if (board.banks.length === 0) this.block.textContent = say.NO_RAM;
    makeFirstTabStop(this.block);
  }

  /** @param {number[]} banks the banks that have chips */
  showBankChoices(banks) {
    this.bankSelect.replaceChildren(...banks.map((bank, index) => element("option", { value: String(index) }, say.bankOf(bank))));
    block("bank-chooser").hidden = banks.length < 2;
    this.showBank();
  }

  /** Shows only the selected bank. */
  showBank() {
    this.tables.forEach((table, index) => {
      table.hidden = this.bankSelect.value !== String(index);
    });
  }

  /** @param {{ bank: number, chips: number }} bank */
  drawBank({ bank, chips }) {
    const rows = indices(chips).flatMap((chip) => indices(4).map((register) => this.drawRegister({ bank, chip, register })));
    const headCells = [say.NIBBLES, "status"].map((word) => element("th", { scope: "col" }, word));
    const head = element("thead", {}, element("tr", {}, element("td"), ...headCells));
    return element("table", { "className": "ram", "aria-label": say.bankOf(bank) }, head, element("tbody", {}, ...rows));
  }

  /** @param {Register} location */
  drawRegister(location) {
    const { bank, chip, register } = location;
    const nibbles = indices(NIBBLES_PER_REGISTER).map((index) => this.drawNibble(location, index));
    const statusCells = indices(STATUS_CHARACTERS_PER_REGISTER).map((index) => this.drawStatus(location, index));
    const names = element("small", { className: "cell-names", hidden: true });
    this.registers.set(`${bank}.${chip}.${register}`, { nibbles, statusCells, names, shownText: "" });
    const groups = [nibbles.slice(0, NIBBLES_PER_GROUP), nibbles.slice(NIBBLES_PER_GROUP), statusCells].map(makeNibbleGroup);
    const cells = [element("td", {}, ...groups.slice(0, 2), names), element("td", {}, groups[2])];
    if (register === 0) cells[1].append(this.drawPort(bank, chip));
    return element("tr", {}, element("th", { scope: "row", title: describeRegister(location) }, `${chip}.${register}`), ...cells);
  }

  /**
   * @param {Register} location
   * @param {number} index the index of the nibble in its register
   */
  drawNibble(location, index) {
    const { bank } = location;
    const srcByte = location.chip * 64 + location.register * 16 + index;
    const button = element("button", { type: "button", title: say.characterTitle(describeRegister(location), index, hex(srcByte, 2)) });
    const watchSwitch = makePressedSwitch(button);
    this.watchSwitches.set(`${bank}.${hex(srcByte, 2)}`, watchSwitch);
    this.makeEditable(`ram.${bank}.0x${hex(srcByte, 2)}`, button);
    let wasWatched = false;
    button.addEventListener("click", (event) => {
      if (event.detail > 0) button.blur();
      if (event.detail > 2) return;
      // The second click of a double click undoes the effect of the first.
      wasWatched = event.detail === 2 ? !wasWatched : watchSwitch.isOn;
      this.toggleWatch(bank, srcByte, wasWatched, button);
    });
    return new Cell(button);
  }

  /**
   * @param {Register} location
   * @param {number} index the index of the status character in its register
   */
  drawStatus(location, index) {
    const title = say.statusTitle(describeRegister(location), index);
    const button = element("button", { type: "button", className: "status", title });
    const place = `st.${location.bank}.${location.chip * 4 + location.register}.${index}`;
    this.makeEditable(place, button);
    return new Cell(button);
  }

  /**
   * Makes a nibble editable.
   * @param {string} place the nibble's location in the syntax of the `poke` command
   * @param {HTMLButtonElement} node
   */
  makeEditable(place, node) {
    this.editor.makeEditable(node, { place, name: node.title, digits: 1 });
    this.nibbles.set(place, { node, title: node.title });
  }

  /**
   * @param {number} bank
   * @param {number} chip
   */
  drawPort(bank, chip) {
    const cell = new Cell(element("span", { title: say.portTitle(bank, chip) }));
    this.editor.makeReadOnly(cell.node, say.RAM_PORTS_ARE_READ_ONLY);
    this.ports.set(`${bank}.${chip}`, cell);
    return element("p", { className: "port" }, say.PORT, cell.node);
  }

  /** @param {Ram} ram */
  show(ram) {
    for (const [name, { characters, status }] of ram.registers) {
      const register = this.registers.get(name);
      if (!register || register.shownText === characters + status) continue;
      register.shownText = characters + status;
      register.nibbles.forEach((cell, index) => this.changes.set(cell, characters[index]));
      register.statusCells.forEach((cell, index) => this.changes.set(cell, status[index]));
    }
    for (const [name, value] of ram.ports) {
      const port = this.ports.get(name);
      if (port) this.changes.set(port, value);
    }
  }

  /**
   * Returns a RAM nibble's name, or its description if it has no name.
   * @param {string} place the nibble's location in the syntax of the `poke` command
   */
  describePlace(place) {
    const [name] = this.names.get(place) || [];
    const nibble = this.nibbles.get(place);
    return name || (nibble ? nibble.title : place);
  }

  /** @param {ReadonlyMap<string, string[]>} names the names of nibbles, by the nibble's location */
  showNames(names) {
    this.names = names;
    for (const place of this.nibbles.keys()) this.updateTitle(place);
    for (const [name, { names: namesLine }] of this.registers) {
      namesLine.textContent = makeNibbleLabels(name, names).join("  ");
      namesLine.hidden = namesLine.textContent === "";
    }
  }

  /** @param {ReadonlyMap<string, CellHeat>} heatByPlace the nibbles that the heat map colours, by the nibble's location */
  showHeat(heatByPlace) {
    const oldHeat = this.heatByPlace;
    this.heatByPlace = heatByPlace;
    for (const place of new Set([...oldHeat.keys(), ...heatByPlace.keys()])) {
      const nibble = this.nibbles.get(place);
      if (!nibble) continue;
      const { warmth } = heatByPlace.get(place) || { warmth: 0 };
      if (warmth > 0) nibble.node.dataset.warmth = String(warmth);
      else delete nibble.node.dataset.warmth;
      this.updateTitle(place);
    }
  }

  /**
   * Sets a RAM nibble's tooltip: its names, its description, and the heat map's text about its changes.
   * @param {string} place the nibble's location in the syntax of the `poke` command
   */
  updateTitle(place) {
    const nibble = this.nibbles.get(place);
    if (!nibble) return;
    const names = this.names.get(place) || [];
    const { changeText } = this.heatByPlace.get(place) || { changeText: "" };
    nibble.node.title = [...names, nibble.title].join(", ") + (changeText && `; ${changeText}`);
    nibble.node.classList.toggle("named", names.length > 0);
  }

  /** @param {string[]} names */
  showWatches(names) {
    const watchedNames = new Set(names);
    for (const [name, watchSwitch] of this.watchSwitches) watchSwitch.set(watchedNames.has(name));
  }
}
