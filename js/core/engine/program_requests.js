// Requests about the program in ROM and its source.

import { findLeftovers, assembleText } from "./program_check.js";
import { disassembleRom } from "./text_recovery.js";

/**
 * @typedef {import("./open_bench.js").OpenBench} OpenBench
 */

export class ProgramRequests {
  /** @param {OpenBench} bench */
  constructor(bench) {
    this.bench = bench;
  }

  /**
   * Returns the `map` answer for a program, the error in its text, and its first difference from ROM.
   * @param {string} text the text as sent to the bench
   */
  checkProgram(text) {
    return this.bench.checkProgram(text);
  }

  /**
   * Returns the size of a program in bytes, and the addresses outside the program at which ROM is not 0.
   * @param {string} text the text as sent to the bench
   */
  findLeftovers(text) {
    if (!this.bench.program || this.bench.program.text !== text) this.bench.program = assembleText(this.bench.engine, text);
    return findLeftovers(this.bench.engine, this.bench.session.file, this.bench.program);
  }

  /** Returns source text that assembles to the bytes in ROM. */
  disassembleRom() {
    return disassembleRom(this.bench.engine, this.bench.session.file);
  }
}
