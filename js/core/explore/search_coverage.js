// The code that a search has executed so far: for each address, whether an instruction started there, whether it jumped, and whether it
// continued at the next address.

import { ADDRESS_COUNT } from "../bench/rom_bytes.js";

/** @typedef {import("./subject.js").Instruction} Instruction */

/** The flags of an address. */
const STARTED = 1;
const JUMPED = 2;
const CONTINUED = 4;

export class Coverage {
  /** @param {string} [text] the coverage in the format of the getter `text` */
  constructor(text = "") {
    this.flags = new Uint8Array(ADDRESS_COUNT);
    [...text].forEach((digit, address) => {
      this.flags[address] = Number(digit);
    });
  }

  /**
   * Adds the counts in an answer to `count`. Returns whether a flag was set for the first time.
   * @param {{ address: number, startCount: number, jumpCount: number }[]} counts
   */
  add(counts) {
    let isNew = false;
    for (const { address, startCount, jumpCount } of counts) {
      const flags = STARTED | (jumpCount > 0 ? JUMPED : 0) | (jumpCount >= 0 && jumpCount < startCount ? CONTINUED : 0);
      isNew = isNew || (flags & ~this.flags[address]) !== 0;
      this.flags[address] |= flags;
    }
    return isNew;
  }

  /**
   * Adds the coverage of another search.
   * @param {Coverage} other
   */
  join(other) {
    this.flags.forEach((_, address) => {
      this.flags[address] |= other.flags[address];
    });
  }

  /** The coverage as text: one digit per address, up to the last address at which an instruction started. */
  get text() {
    return [...this.flags].join("").replace(/0+$/, "");
  }

  /**
   * Returns the numbers of executed instructions (`executed`) and of all instructions (`total`), and the numbers of executed branch
   * directions (`directions`) and of all branch directions (`allDirections`). `unexecutedLines` are the lines that were not executed.
   * `oneDirectionLines` are the lines whose branch always went in the same direction.
   * @param {Instruction[]} instructions
   */
  summarise(instructions) {
    const unexecutedLines = instructions.filter(({ address }) => !(this.flags[address] & STARTED)).map(({ line }) => line);
    const branches = instructions.filter(({ isBranch }) => isBranch);
    const oneDirectionLines = branches
      .filter(({ address }) => (this.flags[address] & STARTED) && (this.flags[address] & (JUMPED | CONTINUED)) !== 6)
      .map(({ line }) => line);
    const directions = branches.reduce((sum, { address }) => sum + Number((this.flags[address] & JUMPED) > 0)
      + Number((this.flags[address] & CONTINUED) > 0), 0);
    const executed = instructions.length - unexecutedLines.length;
    return { executed, total: instructions.length, directions, allDirections: 2 * branches.length, unexecutedLines, oneDirectionLines };
  }
}
