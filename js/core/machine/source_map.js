// The source map of a program, built from the answers to `map`: the address and bytes of each source line, and the names.

import { readMap } from "../bench/answers.js";
import { hex } from "../bench/numbers.js";
import { ADDRESS_COUNT } from "../bench/rom_bytes.js";
import * as say from "../../words/machine.js";

/**
 * A name with its value. The value of a label is an address; the value of any other name is a number that the program defines.
 * @typedef {{ name: string, value: number, isLabel: boolean }} Name
 */

const LABEL_LINE = /^[ \t]*([A-Za-z_][A-Za-z0-9_]*)[ \t]*:/;
const DATA_LINE = /^([ \t]*[A-Za-z_][A-Za-z0-9_]*[ \t]*:)?[ \t]*DB[ \t]/i;

export class SourceMap {
  /**
   * @param {string[]} answers the answer lines to `map`
   * @param {string} text the source text
   */
  constructor(answers, text) {
    this.text = text;
    /** @type {number[]} the address of each source line, by line number from 1 */
    this.addresses = [];
    /** @type {number[]} the number of bytes of each source line, by line number from 1 */
    this.sizes = [];
    /** @type {Map<string, Name>} the names, in the order of their definitions */
    this.names = new Map();
    /** @type {Map<number, string[]>} the labels, by address */
    this.labels = new Map();
    /** The line number of each program byte, by address; 0 for none. */
    this.lines = new Uint16Array(ADDRESS_COUNT);
    this.sourceLines = text.split("\n");
    this.read(answers);
    /** For each address, the nearest labelled address at or below it in the same contiguous range of program bytes; -1 for none. */
    this.labelledAddresses = this.findLabelledAddresses();
  }

  /**
   * Reads the lines and the names from the answers to `map`.
   * @param {string[]} answers
   */
  read(answers) {
    const labels = new Set(this.sourceLines.map((line) => (LABEL_LINE.exec(line) || ["", ""])[1]));
    const { lines, names } = readMap(answers);
    for (const line of lines) this.addLine(line);
    for (const { name, value } of names) this.addName({ name, value, isLabel: labels.has(name) });
  }

  /**
   * Adds the address and the size of a source line.
   * @param {import("../bench/answers.js").MappedLine} mappedLine
   */
  addLine({ line, address, size }) {
    this.addresses[line] = address;
    this.sizes[line] = size;
    this.lines.fill(line, address, address + size);
  }

  /**
   * Adds a name with its value.
   * @param {Name} name
   */
  addName(name) {
    this.names.set(name.name, name);
    if (name.isLabel) this.labels.set(name.value, [...this.labelsAt(name.value), name.name]);
  }

  /** Computes `labelledAddresses`. */
  findLabelledAddresses() {
    const addresses = new Int16Array(ADDRESS_COUNT);
    let labelledAddress = -1;
    for (let address = 0; address < ADDRESS_COUNT; address++) {
      if (this.lines[address] === 0) labelledAddress = -1;
      else if (this.labels.has(address)) labelledAddress = address;
      addresses[address] = labelledAddress;
    }
    return addresses;
  }

  /** The number of program lines. */
  get lineCount() {
    return Math.max(0, this.addresses.length - 1);
  }

  /**
   * Returns the address of a line with bytes; undefined for any other line.
   * @param {number} line
   * @returns {number | undefined}
   */
  addressOf(line) {
    return this.sizes[line] > 0 ? this.addresses[line] : undefined;
  }

  /**
   * Returns the line of the byte at an address; 0 if there is none.
   * @param {number} address
   */
  lineOf(address) {
    return this.lines[address] || 0;
  }

  /**
   * Returns the line of a label; 0 if there is none.
   * @param {string} label
   */
  lineOfLabel(label) {
    return this.sourceLines.findIndex((line) => (LABEL_LINE.exec(line) || ["", ""])[1] === label) + 1;
  }

  /**
   * Returns whether a program instruction starts at an address.
   * @param {number} address
   */
  beginsInstruction(address) {
    const line = this.lineOf(address);
    return line > 0 && this.addresses[line] === address && !DATA_LINE.test(this.sourceLines[line - 1]);
  }

  /**
   * Returns whether an address is inside a program instruction, after its first byte.
   * @param {number} address
   */
  isInsideInstruction(address) {
    const line = this.lineOf(address);
    return line > 0 && this.addresses[line] !== address && !DATA_LINE.test(this.sourceLines[line - 1]);
  }

  /**
   * Returns the labels at an address, in line order.
   * @param {number} address
   */
  labelsAt(address) {
    return this.labels.get(address) || [];
  }

  /**
   * Returns the name of an address: its label, such as `put`, or the nearest label below it with an offset, such as `put + 2`. The label
   * must be in the same contiguous range of program bytes. Returns "" if there is no name.
   * @param {number} address
   */
  nameOf(address) {
    const [label] = this.labelsAt(address);
    if (label) return label;
    const labelledAddress = address < ADDRESS_COUNT ? this.labelledAddresses[address] : -1;
    return labelledAddress < 0 ? "" : `${this.labelsAt(labelledAddress)[0]} + ${address - labelledAddress}`;
  }

  /**
   * Describes the value of a name; "" if the program does not define it.
   * @param {string} word
   */
  meaningOf(word) {
    const name = this.names.get(word);
    if (!name) return "";
    if (!name.isLabel) return `${word} = 0x${hex(name.value, 2)}, ${name.value}`;
    const line = this.lineOf(name.value);
    return say.wordWithAddress(word, hex(name.value, 3), line > 0 ? say.lineSuffix(line) : "");
  }

  /**
   * Returns the value of a name; undefined if the program does not define it.
   * @param {string} name
   * @returns {number | undefined}
   */
  findValue(name) {
    const definition = this.names.get(name);
    return definition && definition.value;
  }

  /**
   * Returns the value of a name. If no name matches exactly, ignores case. Returns undefined if no name matches, or if several names do.
   * @param {string} word
   * @returns {number | undefined}
   */
  findValueIgnoringCase(word) {
    const exactValue = this.findValue(word);
    if (exactValue !== undefined) return exactValue;
    const matches = [...this.names.keys()].filter((name) => name.toLowerCase() === word.toLowerCase());
    return matches.length === 1 ? this.findValue(matches[0]) : undefined;
  }
}
