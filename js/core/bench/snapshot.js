// Builds snapshots of a session from the bench's answers, and finds the changes between two snapshots.

import { readRam } from "./answers.js";
import { matchAnswers } from "./inputs.js";
import { parseItems, parseState, parsePorts, parseRegisters } from "./state_line.js";

/**
 * @typedef {import("./answers.js").Board} Board
 * @typedef {import("./answers.js").Ports} Ports
 * @typedef {import("./answers.js").Ram} Ram
 * @typedef {import("./answers.js").Registers} Registers
 * @typedef {import("./inputs.js").Input} Input
 * @typedef {import("./state_line.js").StateParts} StateParts
 * @typedef {{ lamps?: string, keys?: string[], test?: string }} FrontPanelChanges
 * @typedef {{ registers?: Registers, ports?: Ports, breakpoints?: string[], watches?: string[], ram?: Ram[] }} StateChanges
 */

/**
 * Returns the snapshot queries for a board.
 * @param {Pick<Board, "banks">} board
 */
export function snapshotQueries(board) {
  return ["state", ...board.banks.map(({ bank }) => `ram ${bank}`)];
}

/**
 * Returns a snapshot: for each query, its answer lines joined into one string.
 * @param {Input[]} inputs the queries
 * @param {string[]} answers
 */
export function buildSnapshot(inputs, answers) {
  return matchAnswers(inputs, answers).map((lines) => lines.join("\n"));
}

/** @type {StateParts} the state before the first snapshot */
const INITIAL_PARTS = { registers: "", test: "", ports: "", keys: "", lamps: "", breaks: "", watches: "" };

/**
 * Finds the changes between snapshots. `readSnapshot` stores a snapshot and returns the changes of the front panel. `readStateChanges`
 * returns the changes of everything else since its previous call, and can be called less often.
 */
export class SnapshotReader {
  constructor() {
    /** @type {string[]} the last snapshot */
    this.snapshot = [];
    this.parts = INITIAL_PARTS;
    /** @type {string[]} the last snapshot that `readStateChanges` read */
    this.lastReadSnapshot = [];
    this.lastReadParts = INITIAL_PARTS;
    /** @type {Registers | null} the registers of the last snapshot that `readStateChanges` read */
    this.registers = null;
  }

  /** Forgets the last snapshot, so that all parts of the next snapshot count as changed. */
  forget() {
    this.snapshot = this.lastReadSnapshot = [];
    this.parts = this.lastReadParts = INITIAL_PARTS;
  }

  /**
   * Stores a snapshot; returns the front-panel changes since the previous snapshot.
   * @param {string[]} snapshot
   * @returns {FrontPanelChanges}
   */
  readSnapshot(snapshot) {
    const { parts: previousParts } = this;
    const parts = parseState(snapshot[0]);
    this.snapshot = snapshot;
    this.parts = parts;
    /** @type {FrontPanelChanges} */
    const changes = {};
    if (parts.lamps !== previousParts.lamps) changes.lamps = parseItems(parts.lamps).join("");
    if (parts.keys !== previousParts.keys) changes.keys = parseItems(parts.keys);
    if (parts.test !== previousParts.test) changes.test = parts.test;
    return changes;
  }

  /**
   * Returns the changes of the snapshot since the previous call, except those of the front panel.
   * @returns {StateChanges}
   */
  readStateChanges() {
    const { snapshot, parts, lastReadSnapshot: previousSnapshot, lastReadParts: previousParts } = this;
    this.lastReadSnapshot = snapshot;
    this.lastReadParts = parts;
    /** @type {StateChanges} */
    const changes = {};
    if (snapshot === previousSnapshot) return changes;
    if (parts.registers !== previousParts.registers) changes.registers = this.registers = parseRegisters(parts.registers);
    if (parts.ports !== previousParts.ports) changes.ports = parsePorts(parts.ports);
    if (parts.breaks !== previousParts.breaks) changes.breakpoints = parseItems(parts.breaks);
    if (parts.watches !== previousParts.watches) changes.watches = parseItems(parts.watches);
    for (let index = 1; index < snapshot.length; index++) {
      if (snapshot[index] !== previousSnapshot[index]) (changes.ram = changes.ram || []).push(readRam(snapshot[index].split("\n")));
    }
    return changes;
  }
}
