// Finds the tables of a board text that define chips and chains, and the values that refer to such a table, such as the port line of a
// lamp.

import { readBoardText } from "../text/board_reader.js";
import * as say from "../../words/server.js";

/**
 * @typedef {import("../text/board_reader.js").Entry} Entry
 * @typedef {import("../text/board_reader.js").Value} Value
 * @typedef {Value & { key: string, entry: Entry }} KeyedValue a value or an array element, with its key and its table
 */

/** Matches the name of a port line or a chain bit, such as `rom0.2`, `ram0.1.3` or `chain0.5`. */
const LINE_NAME = /^(rom|ram|chain)(\d+)\.(\d+)(?:\.(\d+))?$/;
/** @type {Record<string, string>} the keys whose values are chip or bank numbers, by table name */
const NUMBER_KEYS = { rom: "chip", ram: "bank" };

/**
 * Returns the value of a key in a table; undefined if the key is missing.
 * @param {Entry} entry
 * @param {string} name
 */
function getKeyValue({ keys }, name) {
  const key = keys.find((candidate) => candidate.name === name);
  return key && key.value.inner;
}

export class BoardReferences {
  /** @param {string} text */
  constructor(text) {
    const { entries } = readBoardText(text);
    this.entries = entries;
    this.chains = entries.filter(({ table }) => table === "chain");
    this.lamps = entries.filter(({ table }) => table === "lamp");
    /** @type {KeyedValue[]} */
    this.values = entries.flatMap((entry) => entry.keys.flatMap(({ name, value }) => {
      const innerValues = Array.isArray(value.inner) ? value.inner : [value];
      return innerValues.map((element) => ({ ...element, key: name, entry }));
    }));
    /** @type {Map<Entry, number>} the index of each table among tables with the same name */
    this.tableIndices = new Map();
    /** @type {Map<string, Entry>} the first table of each chip, by chip name (`rom 3`, `ram 0`) */
    this.chips = new Map();
    /** @type {Map<string, number>} the number of tables so far, by table name */
    const tableCounts = new Map();
    for (const entry of entries) {
      const { table } = entry;
      const index = tableCounts.get(table) || 0;
      const chipName = `${table} ${getKeyValue(entry, NUMBER_KEYS[table])}`;
      this.tableIndices.set(entry, index);
      tableCounts.set(table, index + 1);
      if (!this.chips.has(chipName)) this.chips.set(chipName, entry);
    }
    this.entryName = this.entryName.bind(this);
  }

  /**
   * Returns the value at a position; null if there is none.
   * @param {number} line the line number from 1
   * @param {number} column the column from 0
   */
  valueAt(line, column) {
    return this.values.find((value) => value.line === line && value.from <= column && column <= value.to) || null;
  }

  /**
   * Returns the table of the chip or chain that a value refers to; null if there is none.
   * @param {KeyedValue} value
   * @returns {Entry | null}
   */
  findReferencedEntry({ inner, key, entry }) {
    if (entry.table === "[keys]" && key === "chain") return this.chains[Number(inner)] || null;
    const match = LINE_NAME.exec(String(inner));
    if (!match || key === "port") return null;
    const [, kind, number] = match;
    if (kind === "chain") return this.chains[Number(number)] || null;
    return this.chips.get(`${kind} ${Number(number)}`) || null;
  }

  /**
   * Returns the chip table or chain table that contains a line; null if there is none.
   * @param {number} line the line number from 1
   */
  findEntryAtLine(line) {
    const contains = (/** @type {Entry} */ entry) => line >= entry.line && entry.keys.some((key) => line <= key.line);
    return this.entries.filter((entry) => ["rom", "ram", "chain"].includes(entry.table) && contains(entry)).pop() || null;
  }

  /**
   * Returns the name of a table with its number, such as `rom 3`, `ram bank 0` or `lamp 0`.
   * @param {Entry} entry
   */
  entryName(entry) {
    const kind = entry.table.replace(/[[\]]/g, "");
    const number = NUMBER_KEYS[kind] && getKeyValue(entry, NUMBER_KEYS[kind]);
    if (number !== undefined) return `${kind} ${kind === "ram" ? "bank " : ""}${number}`;
    if (entry.table === "[keys]") return "keys";
    return `${kind} ${this.tableIndices.get(entry)}`;
  }

  /**
   * Returns the hover text for a value that names a port line or a chain bit; "" for any other value. The text describes the line or the
   * bit. It names the lamp that uses the line or the bit, and the text line in which the chip or chain is defined.
   * @param {KeyedValue} value
   * @param {import("../board/face.js").Face} face
   */
  describeValue(value, face) {
    const match = LINE_NAME.exec(String(value.inner));
    if (!match || value.key === "port") return "";
    const [name, kind, first, second, third] = match;
    const lineDescription = kind === "rom" ? say.lineOfRom(second, first)
      : kind === "chain" ? say.bitOfChain(second, first)
        : say.lineOfRam(third, second, first);
    const lamp = this.lamps.indexOf(value.entry);
    const faceText = face.lamps.get(lamp);
    const lampText = lamp < 0 ? "" : `, lamp ${lamp}${faceText ? ` (${faceText.text})` : ""}`;
    const entry = this.findReferencedEntry(value);
    return `${name}: ${lineDescription}${lampText}${entry ? say.definitionSuffix(kind === "chain", entry.line) : ""}.`;
  }
}
