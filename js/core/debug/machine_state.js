// Parses the machine state in a snapshot: registers, RAM, ports, and what SRC has selected. A snapshot contains the answers to `state`, and
// to `ram B` for each bank B.

import { readRam } from "../bench/answers.js";
import { hex } from "../bench/numbers.js";
import { parseState, parsePorts, parseRegisters } from "../bench/state_line.js";
import * as say from "../../words/debug.js";

/**
 * @typedef {import("../bench/answers.js").Ram} Ram
 * @typedef {import("../bench/answers.js").Registers} Registers
 * @typedef {import("../bench/answers.js").RomPort} RomPort
 */

/**
 * Returns a description of a RAM character: its chip, register and number.
 * @param {number} byte the SRC byte that selects the character
 */
export function describeCharacter(byte) {
  return say.characterAt(byte >> 6, byte >> 4 & 3, byte & 15);
}

/** The machine state in a snapshot. */
export class MachineState {
  /** @param {string[]} snapshot the answers to `state`, and to `ram B` for each bank B with chips; each answer is one string */
  constructor([state, ...banks]) {
    const parts = parseState(state);
    /** @type {Registers} */
    this.registers = parseRegisters(parts.registers);
    this.parts = parts;
    this.ports = parsePorts(parts.ports);
    this.banks = banks;
    /** @type {Map<number, Ram> | null} the parsed RAM contents; null before their first use */
    this.parsedRam = null;
  }

  /** @returns {Map<number, Ram>} the contents of the banks, by bank number */
  get ram() {
    if (!this.parsedRam) {
      const bankNumbers = this.ports.srcBytes.slice(1).map((latchedByte) => Number(latchedByte.split(".")[0]));
      this.parsedRam = new Map(this.banks.map((answer, index) => [bankNumbers[index], readRam(answer.split("\n"))]));
    }
    return this.parsedRam;
  }

  /** The bank selected by DCL. */
  get bank() {
    return parseInt(this.registers.bank, 16);
  }

  /** The SRC byte latched in the ROMs. */
  get romSrcByte() {
    return parseInt(this.ports.srcBytes[0], 16);
  }

  /**
   * Returns the SRC byte latched in a bank; undefined if the board does not have the bank.
   * @param {number} [bank]
   */
  latchedSrcByte(bank = this.bank) {
    const banksAndBytes = this.ports.srcBytes.slice(1).map((latchedByte) => latchedByte.split("."));
    const latchedParts = banksAndBytes.find(([number]) => Number(number) === bank);
    return latchedParts && parseInt(latchedParts[1], 16);
  }

  /**
   * Returns the value of a register, as a hexadecimal digit.
   * @param {number} number the register number
   */
  register(number) {
    return this.registers.registers[number];
  }

  /**
   * Returns the value of a register pair, as two hexadecimal digits.
   * @param {number} number the number of the register pair
   */
  pair(number) {
    return this.register(2 * number) + this.register(2 * number + 1);
  }

  /**
   * Returns the contents of a RAM register; undefined if the board does not have this register.
   * @param {number} bank
   * @param {number} register 0 to 15: four times the chip number, plus the number of the register in the chip
   */
  ramRegister(bank, register) {
    const ram = this.ram.get(bank);
    return ram && ram.registers.get(`${bank}.${register >> 2}.${register & 3}`);
  }

  /**
   * Returns the value of a RAM character; "" if the board does not have this character.
   * @param {number} bank
   * @param {number} byte the SRC byte that selects the character
   */
  character(bank, byte) {
    const ramRegister = this.ramRegister(bank, byte >> 4);
    return ramRegister ? ramRegister.characters[byte & 15] : "";
  }

  /**
   * Returns the value of a status character; "" if the board does not have this character.
   * @param {number} bank
   * @param {number} register 0 to 15: four times the chip number, plus the number of the register in the chip
   * @param {number} number the number of the status character, 0 to 3
   */
  status(bank, register, number) {
    const ramRegister = this.ramRegister(bank, register);
    return ramRegister ? ramRegister.status[number] : "";
  }

  /**
   * Returns the port of a ROM; undefined if the board does not have the ROM.
   * @param {number} chip
   * @returns {RomPort | undefined}
   */
  romPort(chip) {
    return this.ports.roms.find((rom) => Number(rom.chip) === chip);
  }

  /**
   * Returns the output of a RAM port; "" if the board does not have the chip.
   * @param {number} bank
   * @param {number} chip
   */
  ramPort(bank, chip) {
    const ram = this.ram.get(bank);
    return (ram && ram.ports.get(`${bank}.${chip}`)) || "";
  }

  /**
   * Returns the registers, SRC bytes, RAM and status characters, and outputs of ports and chains, by name. Messages about changes list the
   * values in the same order.
   * @returns {Map<string, string>}
   */
  allValues() {
    const { registers, ports } = this;
    /** @type {Map<string, string>} */
    const values = new Map([["acc", registers.accumulator], ["cy", registers.carry], ["dcl", registers.bank]]);
    registers.registers.forEach((value, index) => values.set(`R${index}`, value));
    for (const latchedByte of ports.srcBytes) {
      const [bank, byte] = latchedByte.split(".");
      values.set(byte === undefined ? "SRC" : say.srcOfBank(bank), byte === undefined ? bank : byte);
    }
    for (const [bank, ram] of this.ram) {
      for (const [name, { characters, status }] of ram.registers) {
        const [, chip, register] = name.split(".").map(Number);
        [...characters].forEach((value, index) => values.set(`ram.${bank}.0x${hex(chip * 64 + register * 16 + index, 2)}`, value));
        [...status].forEach((value, index) => values.set(`st.${bank}.${chip * 4 + register}.${index}`, value));
      }
      for (const [name, value] of ram.ports) values.set(`ram${name} out`, value);
    }
    for (const { chip, out } of ports.roms) values.set(`rom${chip} out`, out);
    ports.chains.forEach((bits, chain) => values.set(`chain${chain}`, bits));
    return values;
  }
}
