// The board's wiring: a picture that shows the level of each line, and a description as text. A part is a chip, a row of lamps, a key
// matrix or another component of the board.

import { BITS_PER_CHIP } from "../../core/bench/board_form.js";
import { Switch, block, element } from "../ui/dom.js";
import { indices } from "../../core/bench/numbers.js";
import { svgElement } from "../ui/svg.js";
import { pathText, routeWire } from "../../core/board/wire_routes.js";
import { TITLE_HEIGHT, layOutBoard, isHigh, isHighAtRom } from "../../core/board/wiring.js";
import * as say from "../../words/board.js";

/**
 * @typedef {import("../../core/bench/answers.js").Board} Board
 * @typedef {import("../../core/bench/answers.js").Ports} Ports
 * @typedef {import("../../core/bench/answers.js").Ram} Ram
 * @typedef {import("../../core/board/wiring.js").Part} Part
 * @typedef {import("../../core/board/wiring.js").Pin} Pin
 * @typedef {import("../../core/board/wiring.js").Wire} Wire
 * @typedef {(Switch | undefined)[]} Levels the drawn level of each line of a port or a chain; undefined for lines that are not drawn
 */

/** The radius of a pin's clickable area, in SVG units. */
const PIN_CLICK_RADIUS = 9;
/** The length of a chip's drawn leg, in SVG units. */
const LEG_LENGTH = 7;
/** Half the width of the notch in a chip's outline, in SVG units. */
const NOTCH_RADIUS = 6;
/** The minimum size of the picture in SVG units. A small board leaves empty space where the user can drop parts. */
const MIN_WIDTH = 560;
const MIN_HEIGHT = 240;

export class WiringView {
  /** @param {() => boolean} isShown returns true if the wiring tab is in front */
  constructor(isShown) {
    this.isShown = isShown;
    this.root = block("wiring-picture");
    this.descriptionList = block("wiring-words");
    /** @type {Map<string, Switch>} the level of each line, by line name; the name of the TEST pin is "" */
    this.levels = new Map();
    /** @type {Map<string, SVGElement>} the elements of parts and pins by name, in drawing order */
    this.items = new Map();
    /** @type {Map<string, Part>} */
    this.parts = new Map();
    /** @type {Map<string, string[]>} the pins at the ends of each line's wires, by line name */
    this.linePins = new Map();
    /** @type {WeakMap<Element, string>} the name of the part or pin to which each element belongs */
    this.names = new WeakMap();
    /**
     * @type {{ mask: string, levels: Levels }[]} the line levels of each ROM chip; `mask` is the chip's `port` string in the board's text
     */
    this.roms = [];
    /** @type {Levels[]} */
    this.chains = [];
    /** @type {Map<string, Levels>} the line levels of each RAM chip, by `bank.chip` */
    this.rams = new Map();
    /** The name of the highlighted part, for example `rom 1`; "" if there is none. */
    this.highlightedName = "";
    /** The name of the part or pin that the Tab key moves the focus to. */
    this.tabStop = "";
    /** @type {Ports | null} */
    this.ports = null;
    /** @type {Map<string, string>} */
    this.ramPorts = new Map();
    this.isTestHigh = false;
    /** True while the user drags a part. The picture keeps its size until the drop. */
    this.isDragging = false;
    /** The SVG viewBox of the picture. */
    this.viewBox = "";
    /** The wire that the user is drawing. */
    this.newWire = svgElement("path", { class: "wire pencil" });
  }

  /** Discards all known levels. Called before the bench uses another board. */
  discardLevels() {
    this.ports = null;
    this.ramPorts.clear();
  }

  /** Shows the last levels that the bench reported. Called only while the wiring tab is in front. */
  showLevels() {
    const { ports } = this;
    // While a session opens, its first levels can arrive before its board is drawn.
    if (ports && ports.roms.length === this.roms.length && ports.chains.length === this.chains.length) {
      this.roms.forEach(({ mask, levels }, index) => setLevels(levels, (line) => isHighAtRom(mask, ports.roms[index], line)));
      this.chains.forEach((levels, index) => setLevels(levels, (bit) => ports.chains[index][bit] === "1"));
    }
    for (const [name, digit] of this.ramPorts) setLevels(this.rams.get(name) || [], (line) => isHigh(digit, line));
    setLevels([this.levels.get("")], () => this.isTestHigh);
  }

  /**
   * Draws a new board in place of the current one.
   * @param {Board} board
   * @param {import("../../core/board/wiring.js").Appearance} appearance
   * @param {{ moved: import("../../core/board/wiring.js").Positions, isWired: boolean }} state `moved`: the positions of the dragged parts;
   *   `isWired`: true if the bench uses this board, so that its lines have levels
   */
  draw(board, appearance, { moved, isWired }) {
    const { parts, wires, ...size } = layOutBoard(board, appearance, moved);
    const [width, height] = [Math.max(MIN_WIDTH, size.width), Math.max(MIN_HEIGHT, size.height)];
    const focusedName = document.activeElement instanceof Element ? this.nameAt(document.activeElement) : "";
    this.items.clear();
    this.levels.clear();
    this.parts = new Map(parts.map((part) => [part.id, part]));
    /** @type {Map<string, SVGElement[]>} */
    const nodesByLine = new Map();
    const wireNodes = wires.flatMap((wire, index) => this.drawWire(wire, pathText(routeWire(wire, parts, index)), nodesByLine));
    this.linePins = groupPinsByLine(wires);
    const partNodes = parts.map((part) => this.drawPart(part, nodesByLine));
    for (const [line, elements] of nodesByLine) {
      this.levels.set(line, new Switch((isOn) => elements.forEach((node) => node.classList.toggle("high", isOn))));
    }
    this.groupLevels(isWired ? board : null);
    if (!this.isDragging) {
      this.viewBox = `0 0 ${width} ${height}`;
      this.root.style.setProperty("--picture-width", `${width}px`);
    }
    const picture = svgElement("svg", { viewBox: this.viewBox, role: "group", "aria-label": say.PARTS_AND_WIRES });
    picture.append(...wireNodes, ...partNodes, this.newWire);
    this.root.replaceChildren(picture);
    this.descriptionList.replaceChildren(...parts.map(({ title, descriptions }) => (
      element("li", {}, `${title}: ${descriptions.join("; ")}.`))));
    this.setTabStop(this.items.has(focusedName) ? focusedName : this.tabStop);
    if (focusedName) this.focus(this.tabStop);
    this.showHighlight();
    if (this.isShown()) this.showLevels();
  }

  /**
   * Groups the drawn levels of the lines by chip and by chain.
   * @param {Board | null} board null if the drawn board has not been applied to the bench
   */
  groupLevels(board) {
    const { roms, chains, banks } = board || { roms: [], chains: [], banks: [] };
    /** @type {(owner: string, count: number) => Levels} */
    const findLevels = (owner, count) => indices(count).map((line) => this.levels.get(`${owner}.${line}`));
    this.roms = roms.map(({ chip, port }) => ({ mask: port, levels: findLevels(`rom${chip}`, 4) }));
    this.chains = chains.map(({ chips }, index) => findLevels(`chain${index}`, BITS_PER_CHIP * chips));
    const names = banks.flatMap(({ bank, chips }) => indices(chips).map((chip) => `${bank}.${chip}`));
    this.rams = new Map(names.map((name) => [name, findLevels(`ram${name}`, 4)]));
  }

  /**
   * Returns a wire's elements: its path, and a wider invisible path as the clickable area.
   * @param {Wire} wire
   * @param {string} pathData the wire's SVG path
   * @param {Map<string, SVGElement[]>} nodesByLine the elements of each line, by line name; receives the path
   */
  drawWire(wire, pathData, nodesByLine) {
    const path = svgElement("path", { class: "wire", d: pathData });
    const hitArea = svgElement("path", { class: "reach", d: pathData });
    this.names.set(hitArea, wire.to.id);
    nodesByLine.set(wire.line, [...(nodesByLine.get(wire.line) || []), path]);
    return [path, hitArea];
  }

  /**
   * @param {Part} part
   * @param {Map<string, SVGElement[]>} nodesByLine the elements of each line, by line name; receives the pins
   */
  drawPart(part, nodesByLine) {
    const { id, kind, title, x, y, width, height, descriptions } = part;
    const description = `${title}: ${descriptions.join("; ")}`;
    const box = svgElement("g", { class: `part of-${kind}`, role: "button", tabindex: -1, "aria-label": description });
    const head = svgElement("text", { class: "title", x: x + width / 2, y: y + TITLE_HEIGHT - 9 }, title);
    const isChip = part.pins.some(({ number }) => number !== undefined);
    const [middle, notch] = [x + width / 2, NOTCH_RADIUS];
    box.append(svgElement("rect", { x, y, width, height, rx: isChip ? 2 : 4 }), head);
    if (isChip) box.append(svgElement("path", { class: "notch", d: `M${middle - notch},${y}a${notch},${notch},0,0,0,${2 * notch},0` }));
    this.registerNode(box, id);
    return svgElement("g", {}, box, ...part.pins.map((pin) => this.drawPin(part, pin, nodesByLine)));
  }

  /**
   * @param {SVGElement} node
   * @param {string} name the name of a part or a pin
   */
  registerNode(node, name) {
    this.items.set(name, node);
    this.names.set(node, name);
  }

  /**
   * Returns a pin's element, with its label inside the part. A lamp's pin is drawn as the lamp.
   * @param {Part} part
   * @param {Pin} pin
   * @param {Map<string, SVGElement[]>} nodesByLine the elements of each line, by line name; receives the pin
   */
  drawPin(part, pin, nodesByLine) {
    const isLeft = pin.x === part.x;
    const isLamp = part.kind === "lamps";
    const centre = { cx: pin.x, cy: pin.y };
    const circle = svgElement("circle", { class: isLamp ? `lamp ${pin.colour}` : "pin", ...centre, r: isLamp ? 6 : 4 });
    const side = isLeft ? "at-left" : "at-right";
    const label = svgElement("text", { class: side, x: pin.x + (isLeft ? 10 : -10), y: pin.y + 4 }, pin.label);
    nodesByLine.set(pin.line, [...(nodesByLine.get(pin.line) || []), circle]);
    const hitArea = svgElement("circle", { class: "reach", ...centre, r: PIN_CLICK_RADIUS });
    const description = `${part.title}, ${pin.label}, ${this.describePin(pin)}`;
    const { number } = pin;
    const title = svgElement("title", {}, (pin.line || say.TEST_PIN) + (number === undefined ? "" : say.pinSuffix(number)));
    const leg = number === undefined ? [] : [
      svgElement("rect", { class: "leg", x: isLeft ? pin.x - LEG_LENGTH : pin.x, y: pin.y - 3, width: LEG_LENGTH, height: 6 }),
      svgElement("text", {
        class: `number ${isLeft ? "at-right" : ""}`, x: pin.x + (isLeft ? -LEG_LENGTH : LEG_LENGTH), y: pin.y - 5,
      }, String(number))];
    const node = svgElement("g", { "class": "at-pin", "role": "button", "tabindex": -1, "aria-label": description },
      title, ...leg, circle, label, hitArea);
    this.registerNode(node, pin.id);
    return node;
  }

  /**
   * Returns a description of a pin's connection: its line, the other pins on its wires, or "not wired".
   * @param {Pin} pin
   */
  describePin({ id, line }) {
    if (line !== "" && id !== line) return say.wiredAt(line);
    const pins = (this.linePins.get(line) || []).filter((pin) => pin !== id);
    return pins.length > 0 ? say.wiredTo(pins.join(say.AND)) : say.NOT_WIRED;
  }

  /**
   * Returns the name of the part or pin to which an element belongs, or "" if there is none.
   * @param {Element | null} node
   */
  nameAt(node) {
    for (let ancestor = node; ancestor && ancestor !== this.root; ancestor = ancestor.parentElement) {
      const name = this.names.get(ancestor);
      if (name !== undefined) return name;
    }
    return "";
  }

  /**
   * Makes one part or pin the only element of the picture that the Tab key reaches. If nothing in the picture has this name, chooses the
   * first part or pin.
   * @param {string} name
   */
  setTabStop(name) {
    const oldTabStopNode = this.items.get(this.tabStop);
    if (oldTabStopNode) oldTabStopNode.setAttribute("tabindex", "-1");
    const [first = ""] = this.items.keys();
    this.tabStop = this.items.has(name) ? name : first;
    const node = this.items.get(this.tabStop);
    if (node) node.setAttribute("tabindex", "0");
  }

  /** @param {string} name the name of a part or a pin */
  focus(name) {
    const node = this.items.get(name);
    if (!node) return;
    this.setTabStop(name);
    node.focus();
  }

  /**
   * Shows the selection, the start pin of the wire in progress, and the pins where that wire can end.
   * @param {string} selection
   * @param {string} startPin
   * @param {Set<string>} endPins
   */
  showSelection(selection, startPin, endPins) {
    for (const [name, node] of this.items) {
      node.classList.toggle("chosen", name === selection);
      node.classList.toggle("begun", startPin !== "" && name === startPin);
      node.classList.toggle("can-end", endPins.has(name));
    }
    this.root.classList.toggle("wiring-on", startPin !== "");
    if (selection) this.setTabStop(selection);
    if (startPin === "") this.drawNewWire("", null);
  }

  /**
   * Draws the wire in progress from a pin to the pointer.
   * @param {string} name the pin's name; "" removes the wire
   * @param {import("../../core/board/wiring.js").Point | null} endPoint
   */
  drawNewWire(name, endPoint) {
    const pin = [...this.parts.values()].flatMap(({ pins }) => pins).find(({ id }) => id === name);
    this.newWire.setAttribute("d", pin && endPoint ? pathText(routeWire({ from: pin, to: endPoint }, [], 0)) : "");
  }

  /**
   * Returns the picture coordinates of a point in the window, or (0, 0) if there is no picture.
   * @param {{ clientX: number, clientY: number }} event
   */
  toPicturePoint({ clientX, clientY }) {
    const picture = this.root.querySelector("svg");
    const matrix = picture && picture.getScreenCTM();
    if (!matrix) return { x: 0, y: 0 };
    const { x, y } = new DOMPoint(clientX, clientY).matrixTransform(matrix.inverse());
    return { x, y };
  }

  /**
   * Highlights the part that the caret's line in the board's text describes.
   * @param {string} name for example `rom 1`, `lamp 3` or `test`; "" removes the highlight
   */
  highlight(name) {
    if (name === this.highlightedName) return;
    this.highlightedName = name;
    this.showHighlight();
  }

  showHighlight() {
    const id = this.highlightedName.startsWith("lamp ") ? "lamps" : this.highlightedName;
    for (const partId of this.parts.keys()) {
      const node = this.items.get(partId);
      if (node) node.classList.toggle("marked", id !== "" && (partId === id || partId.startsWith(`${id}.`)));
    }
  }

  /** @param {Ports} ports */
  showPorts(ports) {
    this.ports = ports;
    if (this.isShown()) this.showLevels();
  }

  /** @param {Ram} ram */
  showRam({ ports }) {
    for (const [name, digit] of ports) this.ramPorts.set(name, digit);
    if (this.isShown()) this.showLevels();
  }

  /** @param {boolean} isOn true if the TEST pin is at 1 */
  showTestPin(isOn) {
    this.isTestHigh = isOn;
    if (this.isShown()) this.showLevels();
  }
}

/**
 * Returns the pins at the ends of wires, grouped by line.
 * @param {Wire[]} wires
 */
function groupPinsByLine(wires) {
  /** @type {Map<string, string[]>} */
  const pins = new Map();
  for (const { line, to } of wires) pins.set(line, [...(pins.get(line) || []), to.id]);
  return pins;
}

/**
 * @param {Levels} levels
 * @param {(line: number) => boolean} isLineHigh
 */
function setLevels(levels, isLineHigh) {
  levels.forEach((level, line) => level && level.set(isLineHigh(line)));
}
