// The views of registers, ports and shift-register chains. Each view shows one answer of the bench.

import { Cell, Switch, block, element, makeFirstTabStop, makeOneTabStop } from "../ui/dom.js";
import { indices } from "../../core/bench/numbers.js";
import * as say from "../../words/machine.js";

/**
 * @typedef {import("../../core/bench/answers.js").Board} Board
 * @typedef {import("../../core/bench/answers.js").Ports} Ports
 * @typedef {import("../../core/bench/answers.js").Registers} Registers
 * @typedef {import("./cell_editor.js").CellEditor} CellEditor
 * @typedef {import("./changes.js").Changes} Changes
 * @typedef {import("../../core/board/face.js").Face} Face
 * @typedef {(name: string) => string} Explain returns the description of a cell, or "" if there is none
 */

/**
 * @param {string[]} headings
 * @param {Explain} explain
 */
function makeTableHead(headings, explain) {
  const headCells = headings.map((heading) => element("th", { scope: "col", title: explain(heading) }, heading));
  return element("thead", {}, element("tr", {}, ...headCells));
}

/** @param {number} count */
function makeCells(count) {
  return indices(count).map(() => new Cell(element("span")));
}

/** @param {Cell[]} cells */
function nodesOf(cells) {
  return cells.map((cell) => cell.node);
}

/** The number of hexadecimal digits of the registers that have more than one digit. */
const DIGIT_COUNTS = new Map([["pc", 3]]);

export class RegistersView {
  /**
   * @param {Changes} changes
   * @param {CellEditor} editor
   * @param {Explain} explain
   */
  constructor(changes, editor, explain) {
    this.changes = changes;
    this.editor = editor;
    this.explain = explain;
    /** @type {Map<string, Cell>} */
    this.cells = new Map();
    const registerNames = indices(16).map((number) => `R${number}`);
    block("registers").append(this.makeGroup(["acc", "cy", "pc", "dcl", "owed"]), this.makeGroup(registerNames, "cells of-eight"));
  }

  /**
   * @param {string[]} names
   * @param {string} className
   */
  makeGroup(names, className = "cells") {
    const group = element("dl", { className }, ...names.map((name) => {
      const titleNode = element("dt", { id: `name-${name}`, title: this.explain(name) }, name);
      const valueNode = element("button", { type: "button", id: `value-${name}` });
      valueNode.setAttribute("aria-labelledby", `${titleNode.id} ${valueNode.id}`);
      this.cells.set(name, new Cell(valueNode));
      if (name === "owed") this.editor.makeReadOnly(valueNode, say.PENDING_CYCLE_IS_READ_ONLY);
      else this.editor.makeEditable(valueNode, { place: name.toLowerCase(), name, digits: DIGIT_COUNTS.get(name) || 1 });
      return element("div", {}, titleNode, element("dd", {}, valueNode));
    }));
    makeOneTabStop(group, () => 8);
    makeFirstTabStop(group);
    return group;
  }

  /** @param {Registers} answer */
  show(answer) {
    /** @type {Record<string, string>} */
    const values = {
      acc: answer.accumulator, cy: answer.carry, pc: answer.counter, dcl: answer.bank, owed: answer.owed,
    };
    answer.registers.forEach((value, number) => {
      values[`R${number}`] = value;
    });
    for (const [name, cell] of this.cells) this.changes.set(cell, values[name]);
  }
}


export class PortsView {
  /**
   * @param {Changes} changes
   * @param {CellEditor} editor
   * @param {Explain} explain
   */
  constructor(changes, editor, explain) {
    this.changes = changes;
    this.editor = editor;
    this.explain = explain;
    this.block = block("ports-status");
    this.srcList = element("dl", { className: "cells" });
    /** @type {Map<string, Cell>} */
    this.srcCells = new Map();
    /** @type {Cell[][]} */
    this.roms = [];
    /** @type {{ bits: Cell[], levelSwitches: Switch[], shownBits: string }[]} */
    this.chains = [];
  }

  /**
   * @param {Board} board
   * @param {Face} face the front panel, which names ports and chains
   */
  draw(board, face) {
    /** @type {(place: string) => string} */
    const findPlaceName = (place) => (face.ports.get(place) || { text: "" }).text;
    this.srcList = element("dl", { className: "cells" });
    this.srcCells.clear();
    this.roms = board.roms.map(() => makeCells(2));
    for (const cell of this.roms.flat()) this.editor.makeReadOnly(cell.node, say.PORTS_ARE_READ_ONLY);
    this.chains = board.chains.map((chain) => {
      const bits = indices(chain.chips * 10).map(() => new Cell(element("i")));
      const levelSwitches = bits.map(({ node }) => new Switch((isOne) => node.classList.toggle("one", isOne)));
      return { bits, levelSwitches, shownBits: "" };
    });
    const lines = this.chains.map(({ bits }, index) => this.makeChainLine(`chain ${index}`, findPlaceName(`chain${index}`), nodesOf(bits)));
    this.block.replaceChildren(this.srcList, ...(board.roms.length > 0 ? [this.makeRomTable(board.roms, findPlaceName)] : []), ...lines);
  }

  /**
   * @param {Board["roms"]} roms
   * @param {(place: string) => string} placeName
   */
  makeRomTable(roms, placeName) {
    const rows = roms.map((rom, index) => element("tr", {},
      element("th", { scope: "row" }, String(rom.chip), element("small", {}, placeName(`rom${rom.chip}`))),
      element("td", {}, rom.port),
      ...nodesOf(this.roms[index]).map((node) => element("td", {}, node))));
    const head = makeTableHead(["ROM", say.LINES_3_TO_0, "latch", "reads"], this.explain);
    return element("table", { className: "roms", "aria-label": say.PORTS_OF_ROMS }, head, element("tbody", {}, ...rows));
  }

  /**
   * @param {string} chain
   * @param {string} name
   * @param {HTMLElement[]} bits
   */
  makeChainLine(chain, name, bits) {
    const groups = [];
    for (let start = 0; start < bits.length; start += 10) groups.push(element("span", {}, ...bits.slice(start, start + 10)));
    return element("p", { className: "chain" }, element("b", {}, chain, element("small", {}, name)), ...groups);
  }

  /**
   * Shows the last SRC byte of the ROM chips, for example `10`, and of each RAM bank, for example `0.10` for bank 0.
   * @param {string[]} srcBytes
   */
  showSrcBytes(srcBytes) {
    for (const srcByte of srcBytes) {
      const [bankOrByte, bankByte] = srcByte.split(".");
      const name = bankByte === undefined ? say.SRC_OF_ROMS : `bank ${bankOrByte}`;
      const cell = this.srcCells.get(name) || this.addSrcCell(name);
      this.changes.set(cell, bankByte === undefined ? bankOrByte : bankByte);
    }
  }

  /** @param {string} name */
  addSrcCell(name) {
    const cell = new Cell(element("dd"));
    this.srcCells.set(name, cell);
    this.srcList.append(element("div", {}, element("dt", { title: this.explain(name) }, name), cell.node));
    return cell;
  }

  /** @param {Ports} answer */
  show(answer) {
    this.showSrcBytes(answer.srcBytes);
    answer.roms.forEach((rom, index) => {
      this.changes.set(this.roms[index][0], rom.out);
      this.changes.set(this.roms[index][1], rom.in);
    });
    answer.chains.forEach((bits, index) => {
      const chain = this.chains[index];
      if (chain.shownBits === bits) return;
      chain.shownBits = bits;
      chain.bits.forEach((cell, bit) => cell.set(bits[bit]));
      chain.levelSwitches.forEach((levelSwitch, bit) => levelSwitch.set(bits[bit] === "1"));
    });
  }
}
