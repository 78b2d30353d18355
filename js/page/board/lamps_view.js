// The board's lamps. A lamp with a position on the front panel is drawn there. All other lamps are drawn in rows, each labelled with its
// own name or the name of its line.

import { block, element } from "../ui/dom.js";
import { perceivedBrightness } from "../../core/board/brightness.js";
import { fittingGroups, isMultiplexed, lampsOutsideGroups } from "../../core/board/face_board.js";
import { lampReader, scannedLampReader } from "../../core/board/lamp_state.js";
import { indices } from "../../core/bench/numbers.js";
import * as say from "../../words/board.js";

/**
 * @typedef {import("../../core/board/brightness.js").Brightness} Brightness
 * @typedef {import("../../core/board/face.js").Face} Face
 * @typedef {import("../../core/board/face.js").Group} Group
 * @typedef {import("../../core/board/lamp_state.js").LampReader} LampReader
 */

/** A drawn lamp. `show` updates the page only if the lamp's brightness or its state (on or off) has changed. */
class Lamp {
  /**
   * @param {LampReader} reader
   * @param {string} name
   * @param {string} lineNames the names of the lines that light the lamp
   * @param {string} colour
   */
  constructor(reader, name, lineNames, colour) {
    this.reader = reader;
    this.isLit = false;
    this.dutyCycle = 0;
    this.brightness = 0;
    this.labels = { lit: say.litLamp(name), dark: say.darkLamp(name) };
    this.node = element("span", { className: `bulb ${colour}`, title: lineNames });
    this.node.setAttribute("role", "img");
    this.node.setAttribute("aria-label", this.labels.dark);
  }

  /**
   * @param {number} dutyCycle the duty cycle, from 0 to 1
   * @param {boolean} isOn true if the lamp is shown as on
   */
  show(dutyCycle, isOn) {
    if (dutyCycle !== this.dutyCycle) this.setBrightness(perceivedBrightness(dutyCycle));
    this.dutyCycle = dutyCycle;
    if (this.isLit === isOn) return;
    this.isLit = isOn;
    this.node.classList.toggle("lit", isOn);
    this.node.setAttribute("aria-label", isOn ? this.labels.lit : this.labels.dark);
  }

  /** @param {number} brightness */
  setBrightness(brightness) {
    if (brightness === this.brightness) return;
    this.brightness = brightness;
    this.node.style.setProperty("--shine", String(brightness));
    this.node.classList.toggle("full", brightness === 1);
  }
}

/**
 * Returns the HTML list of the lamps in a group.
 * @param {Group} group
 * @param {(index: number, defaultName: string) => HTMLElement} makeLampNode returns the lamp element for an index in the group and a
 *   default name
 */
function makeLampList({ kind, rows, columns }, makeLampNode) {
  const cells = indices(rows * columns).map((index) => {
    const defaultName = rows > 1 ? say.rowAndColumn(Math.floor(index / columns), index % columns) : say.lampOfRow(index + 1, columns);
    return element("li", {}, makeLampNode(index, defaultName));
  });
  const list = element("ul", { className: `group ${kind}` }, ...cells);
  list.setAttribute("aria-label", kind);
  list.style.setProperty("--columns", String(columns));
  return list;
}

/** @param {string} line for example `ram0.3.2`: line 2 of port `ram0.3` */
function portOfLine(line) {
  return line.slice(0, line.lastIndexOf("."));
}

export class LampsView {
  constructor() {
    /** @type {Lamp[]} */
    this.lamps = [];
    /** @type {string[]} the name of each lamp's line, for example `ram0.3.2` */
    this.lines = [];
    /** @type {Face | null} */
    this.face = null;
  }

  /**
   * @param {string[]} lines the name of each lamp's line
   * @param {Face} face
   */
  draw(lines, face) {
    this.lamps = [];
    this.lines = lines;
    this.face = face;
    const groups = fittingGroups(face, lines.length);
    const grid = face.grid.filter(({ lamp }) => lamp < lines.length);
    let scannedCount = 0;
    const groupNodes = groups.filter(({ kind }) => kind !== "display").map((group) => (
      isMultiplexed(group) ? this.drawScannedGroup(group, scannedCount++) : this.drawGroup(group)));
    if (grid.length > 0) groupNodes.push(this.drawGrid(grid));
    block("groups").replaceChildren(...groupNodes);
    block("lamps").replaceChildren(...this.drawRows(lampsOutsideGroups(face, lines.length)));
  }

  /** @param {number} index */
  lampName(index) {
    const faceText = this.face && this.face.lamps.get(index);
    return faceText ? faceText.text.replace(/_/g, " ") : "";
  }

  /**
   * @param {number} index
   * @param {string} name the lamp's default name
   */
  makeLamp(index, name) {
    return this.addLamp(index, lampReader(index), this.lampName(index) || name, this.lines[index]);
  }

  /**
   * @param {number} index the index of the board's lamp that determines the colour of the new element
   * @param {LampReader} reader
   * @param {string} name
   * @param {string} lineNames
   */
  addLamp(index, reader, name, lineNames) {
    const colour = this.face && this.face.colours.get(index);
    const lamp = new Lamp(reader, name, lineNames, colour ? colour.text : "red");
    this.lamps.push(lamp);
    return lamp.node;
  }

  /**
   * Returns the HTML list for a group of lamps that is a die, a bar or a matrix.
   * @param {Group} group
   */
  drawGroup(group) {
    return makeLampList(group, (index, defaultName) => this.makeLamp(group.first + index, defaultName));
  }

  /**
   * Returns the HTML list for a multiplexed group, whose lamps are on only while their row is scanned.
   * @param {Group} group
   * @param {number} scannedIndex the index of the group among the multiplexed groups
   */
  drawScannedGroup(group, scannedIndex) {
    return makeLampList(group, (index, defaultName) => {
      const reader = scannedLampReader(group, scannedIndex, index);
      return this.addLamp(reader.column, reader, defaultName, say.linesOfColumnAndRow(this.lines[reader.column], this.lines[reader.row]));
    });
  }

  /** @param {Face["grid"]} grid */
  drawGrid(grid) {
    const hasNames = grid.some(({ lamp }) => this.lampName(lamp) !== "");
    const cells = grid.map(({ row, column, lamp }) => {
      const node = element("li", {}, this.makeLamp(lamp, say.rowAndColumn(row, column)));
      if (hasNames) node.append(element("span", {}, this.lampName(lamp)));
      node.style.setProperty("grid-row", String(row + 1));
      node.style.setProperty("grid-column", String(column + 1));
      return node;
    });
    const list = element("ul", { className: hasNames ? "group grid named" : "group grid" }, ...cells);
    list.setAttribute("aria-label", say.LAMPS);
    return list;
  }

  /**
   * Returns the rows of lamps without a position. Neighbouring named lamps share a row, and so do unnamed lamps of the same port.
   * @param {number[]} lampNumbers
   */
  drawRows(lampNumbers) {
    /** @type {{ port: string, cells: HTMLElement[] }[]} */
    const rows = [];
    for (const index of lampNumbers) {
      const name = this.lampName(index);
      const port = name ? "" : portOfLine(this.lines[index]);
      if (rows.length === 0 || rows[rows.length - 1].port !== port) rows.push({ port, cells: [] });
      const label = name || this.lines[index].slice(port.length + 1);
      rows[rows.length - 1].cells.push(element("li", {}, this.makeLamp(index, this.lines[index]), element("span", {}, label)));
    }
    return rows.map(({ port, cells }) => {
      const list = element("ul", {}, ...cells);
      const faceText = this.face && this.face.ports.get(port);
      list.setAttribute("aria-label", port || say.LAMPS);
      if (!port) return element("div", { className: "lamp-row named" }, list);
      return element("div", { className: "lamp-row" }, element("b", { title: port }, faceText ? faceText.text : port), list);
    });
  }

  /** @param {string} marks one character per lamp: `*` if the lamp is on at this instant */
  show(marks) {
    for (const lamp of this.lamps) {
      const isOn = lamp.reader.isLit(marks);
      lamp.show(Number(isOn), isOn);
    }
  }

  /** @param {Brightness} brightness */
  showBrightness(brightness) {
    for (const lamp of this.lamps) lamp.show(lamp.reader.duty(brightness), lamp.reader.isOn(brightness));
  }
}
