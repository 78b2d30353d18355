// Reads the visible lines of a disassembled listing with as few queries as possible.

import { readListing } from "../bench/answers.js";
import { joinLines, matchAnswers, readInputs } from "../bench/inputs.js";
import { listingStarts, hasLineAt, countLinesNeeded } from "./listing_range.js";

/**
 * @typedef {import("../bench/answers.js").ListingLine} ListingLine
 * @typedef {import("./listing_range.js").ListingGoal} ListingGoal
 */

export class ListingReader {
  /** @param {(lines: string) => Promise<string[]>} ask returns the answers to queries */
  constructor(ask) {
    this.ask = ask;
  }

  /**
   * Resolves to a listing in which a line starts at the anchor address of the goal. Usually the first query is sufficient.
   * @param {ListingGoal} goal
   * @param {number} rows the number of visible lines
   */
  async read(goal, rows) {
    /** @type {ListingLine[]} */
    let lines = [];
    for (const start of listingStarts(goal, rows)) {
      lines = await this.list(start, countLinesNeeded(start, goal, rows));
      if (hasLineAt(lines, goal.anchor)) break;
    }
    return lines;
  }

  /**
   * Resolves to the disassembled lines, starting at an address.
   * @param {number} start the address of the first line
   * @param {number} count the number of lines
   */
  async list(start, count) {
    const lines = joinLines([`list ${start} ${count}`]);
    return readListing(matchAnswers(readInputs(lines), await this.ask(lines))[0]);
  }
}
