// Tracks which chips and registers SRC has selected, and finds mistakes in instructions that use the selection. It is a mistake if the
// selected port or chip is missing, or if the program sent the last SRC for another instruction.

import { hex, parseNumber } from "../bench/numbers.js";
import { parseItems, stateValue } from "../bench/state_line.js";
import { RDR, WRR } from "../engine/rom_codes.js";
import * as say from "../../words/debug.js";

/**
 * @typedef {import("../bench/answers.js").Board} Board
 * @typedef {import("./common_mistakes.js").Kind} Kind
 * @typedef {{ kind: Kind, message: string }} SelectionMistake a mistake: its kind and its message
 */

/** The instructions that write to a RAM bank (mnemonics, by opcode) and those that read from a RAM bank (opcodes). */
const RAM_WRITE_MNEMONICS = new Map([[0xE0, "WRM"], [0xE1, "WMP"], [0xE4, "WR0"], [0xE5, "WR1"], [0xE6, "WR2"], [0xE7, "WR3"]]);
const RAM_READ_CODES = new Set([0xE8, 0xE9, 0xEB, 0xEC, 0xED, 0xEE, 0xEF]);

/**
 * Returns whether an instruction is SRC.
 * @param {number} code
 */
function isSrc(code) {
  return code >> 4 === 2 && code % 2 === 1;
}

/**
 * Returns whether an instruction is SRC, or uses the chip that SRC has selected.
 * @param {number} code
 */
export function usesSelection(code) {
  return code >> 4 === 0xE || isSrc(code);
}

/** Tracks the chips and registers that SRC has selected, and the instructions that have used this selection. */
export class SrcSelection {
  /** @param {Board} board */
  constructor(board) {
    /** @type {Map<number, string>} the port masks of the ROMs, such as `i001` (`i` for an input line), by chip number */
    this.portMasks = new Map(board.roms.map(({ chip, port }) => [Number(chip), port]));
    /** @type {Map<number, number>} the number of chips, by bank */
    this.chipCounts = new Map(board.banks.map(({ bank, chips }) => [Number(bank), Number(chips)]));
    /** @type {Map<number, number>} the latched SRC bytes, by bank */
    this.latchedBytes = new Map();
    /** The address of the last SRC, -1 before the first SRC. */
    this.srcAddress = -1;
    /** @type {Set<string>} the kinds of instructions that have run since the last SRC and used its selection: "WRR", "RDR", or "RAM" */
    this.instructionKinds = new Set();
    /** @type {Map<number, number>} the ROM chips that WRR and RDR last used, by address of the instruction */
    this.lastChips = new Map();
  }

  /**
   * Reads the SRC bytes that the RAM banks have latched.
   * @param {string} state the answer to `state`
   */
  readLatchedBytes(state) {
    for (const latchedByte of parseItems(stateValue(state, "banks"))) {
      const [bank, byte] = latchedByte.split(".");
      this.latchedBytes.set(Number(bank), parseInt(byte, 16));
    }
  }

  /**
   * Updates the tracked selection after an instruction.
   * @param {number} code
   * @param {number} address
   * @param {string[]} values the values of src, dcl and ret after the instruction
   */
  applyInstruction(code, address, [srcByte, bank]) {
    if (isSrc(code)) {
      this.latchedBytes.set(parseNumber(bank), parseInt(srcByte, 16));
      this.srcAddress = address;
      this.instructionKinds.clear();
    } else if (RAM_WRITE_MNEMONICS.has(code) || RAM_READ_CODES.has(code)) this.instructionKinds.add("RAM");
    else if (code === WRR || code === RDR) {
      this.instructionKinds.add(code === WRR ? "WRR" : "RDR");
      this.lastChips.set(address, parseInt(srcByte[0], 16));
    }
  }

  /**
   * Returns the mistake in the next instruction; null if there is none.
   * @param {number} code
   * @param {number} address
   * @param {string[]} values the values of src, dcl and ret before the instruction
   * @returns {SelectionMistake | null}
   */
  findMistake(code, address, [srcByte, bank]) {
    if (code === WRR || code === RDR) return this.findPortMistake(code === WRR ? "WRR" : "RDR", address, parseInt(srcByte[0], 16));
    const name = RAM_WRITE_MNEMONICS.get(code);
    return name ? this.findRamMistake(name, parseNumber(bank)) : null;
  }

  /**
   * Returns the mistake in a WRR or RDR; null if there is none.
   * @param {string} name the mnemonic of the instruction
   * @param {number} address
   * @param {number} chip the selected ROM
   * @returns {SelectionMistake | null}
   */
  findPortMistake(name, address, chip) {
    const port = this.portMasks.get(chip);
    const isWrite = name === "WRR";
    const action = say.romAccess(name, isWrite, chip);
    if (port === undefined) return isWrite ? { kind: "chip", message: say.missingPartMessage(action, this.lastSrcText) } : null;
    if (isWrite && !/[01]/.test(port)) return { kind: "lines", message: say.noOutputsMessage(action, this.lastSrcText) };
    if (!isWrite && !port.includes("i")) return { kind: "lines", message: say.noInputsMessage(action, this.lastSrcText) };
    const lastChip = this.lastChips.get(address);
    const otherKind = [...this.instructionKinds].find((instructionKind) => instructionKind !== name);
    if (otherKind === undefined || lastChip === undefined || lastChip === chip) return null;
    const message = say.selectedByEarlierSrc(action, lastChip, this.srcAddress < 0 ? "" : say.atAddress(hex(this.srcAddress, 3)));
    return { kind: "source", message: say.srcWasForMessage(message, otherKind) };
  }

  /** The suffix of a message, with the address of the last SRC; "" before the first SRC. */
  get lastSrcText() {
    return this.srcAddress < 0 ? "" : say.lastSrcSuffix(hex(this.srcAddress, 3));
  }

  /**
   * Returns the mistake in an instruction that writes to RAM; null if there is none.
   * @param {string} name the mnemonic of the instruction
   * @param {number} bank the selected bank
   * @returns {SelectionMistake | null}
   */
  findRamMistake(name, bank) {
    const chips = this.chipCounts.get(bank) || 0;
    const chip = (this.latchedBytes.get(bank) || 0) >> 6;
    if (chip < chips) return null;
    const chipText = chips === 0 ? say.bankWithoutRam(bank) : say.chipOfBank(chip, bank, chips);
    return { kind: "chip", message: say.writesTo(name, chipText, this.lastSrcText) };
  }
}
