// Reads the current values of `trace` places with the fastest queries. The queries `lamps`, `regs`, `state` and `ram` report most of these
// values in the same format as `trace`. Unlike `trace`, they need no copy of the bench.

import { parseNumber } from "../bench/numbers.js";
import { PlaceQueries } from "./place_queries.js";

/**
 * @typedef {import("../bench/answers.js").Board} Board
 * @typedef {import("./place_queries.js").PlaceAnswers} PlaceAnswers
 *
 * The position of a value in the answer to a query: the query, the index of the answer line, the index of the first character, and the
 * number of characters. If `precedingWord` is not "", the index counts from the end of that word. If `length` is 0, the value extends to
 * the end of the line.
 * @typedef {{ query: string, line: number, precedingWord: string, start: number, length: number }} AnswerPosition
 */

/**
 * The position of each register in the answer to `regs` (`acc H cy B pc HHH owed B dcl D test B r HHHHHHHHHHHHHHHH ..`): the index of its
 * first character, and its length.
 */
const REGISTER_POSITIONS = new Map([["acc", [4, 1]], ["cy", [9, 1]], ["pc", [14, 3]], ["dcl", [29, 1]]]);
/** The index of register r0 in the answer to `regs`. */
const R0_POSITION = 40;
/** The number of lines per chip in the answer to `ram`: one per register, and one for the port. */
const LINES_PER_CHIP = 5;
const REGISTERS_PER_CHIP = 4;

/**
 * Returns the number of chips in a bank of the board.
 * @param {Board} board
 * @param {number} bank
 */
function countChips({ banks }, bank) {
  return (banks.find((candidate) => candidate.bank === bank) || { chips: 0 }).chips;
}

/**
 * Returns the position of a processor register; null for any other place.
 * @param {string} name
 * @returns {AnswerPosition | null}
 */
function findRegister(name) {
  const position = REGISTER_POSITIONS.get(name);
  if (position) return { query: "regs", line: 0, precedingWord: "", start: position[0], length: position[1] };
  const register = /^r(\d+)$/.exec(name);
  return register && { query: "regs", line: 0, precedingWord: "", start: R0_POSITION + Number(register[1]), length: 1 };
}

/**
 * Returns the position of a RAM nibble or status character, such as `ram.0.0x12` or `st.0.1.2`; null for any other place.
 * @param {string} name
 * @param {Board} board
 * @returns {AnswerPosition | null}
 */
function findMemory(name, board) {
  const [word, ...parts] = name.split(".");
  if (word !== "ram" && word !== "st") return null;
  const [bank, address, statusIndex] = parts.map(parseNumber);
  const register = word === "ram" ? address >> 4 : address;
  if ((register >> 2) >= countChips(board, bank)) return null;
  const line = 1 + (register >> 2) * LINES_PER_CHIP + (register % REGISTERS_PER_CHIP);
  // The answer line has the form `0.0.1 HHHHHHHHHHHHHHHH HHHH`.
  const start = word === "ram" ? 6 + (address % 16) : 23 + statusIndex;
  return { query: `ram ${bank}`, line, precedingWord: "", start, length: 1 };
}

/**
 * Returns the position of a RAM port, such as `ram0.1`; null for any other place. The value of a RAM port is that of its latch. This module
 * reads the `state` line by position, without bench/state_line.js, because a search takes thousands of snapshots per second.
 * @param {string} name
 * @param {Board} board
 * @returns {AnswerPosition | null}
 */
function findPort(name, board) {
  const match = /^ram(\d)\.(\d)$/.exec(name);
  if (!match || Number(match[2]) >= countChips(board, Number(match[1]))) return null;
  // The answer line contains the outputs in the form `rams 0.0.H,0.1.H,1.0.H`.
  const earlierChips = board.banks.filter(({ bank }) => bank < Number(match[1])).reduce((sum, { chips }) => sum + chips, 0);
  return { query: "state", line: 0, precedingWord: " rams ", start: 6 * (earlierChips + Number(match[2])) + 4, length: 1 };
}

/**
 * Returns the position of a `trace` place in the answer to a fast query; null if only `trace` reports the place.
 * @param {string} name
 * @param {Board} board
 */
function findPosition(name, board) {
  if (name === "lamps") return { query: "lamps", line: 0, precedingWord: "", start: 6, length: 0 };
  return findRegister(name) || findMemory(name, board) || findPort(name, board);
}

export class PlaceReader {
  /**
   * @param {string[]} names
   * @param {Board} board
   */
  constructor(names, board) {
    const allNames = [...new Set(names)];
    const positions = allNames.map((name) => findPosition(name, board));
    /** The places that only `trace` reports. */
    this.remainingPlaces = new PlaceQueries(allNames.filter((_, at) => !positions[at]));
    this.positions = positions.flatMap((position) => position || []);
    /** All places, in the order of the values. */
    this.names = [...allNames.filter((_, at) => positions[at]), ...this.remainingPlaces.names];
    this.queries = [...new Set(this.positions.map(({ query }) => query))];
    /** The query lines. */
    this.lines = this.queries.map((query) => `${query}\n`).join("") + this.remainingPlaces.formatLines(1);
    const lineCounts = this.queries.map((query) => (
      query.startsWith("ram ") ? 1 + LINES_PER_CHIP * countChips(board, Number(query.slice(4))) : 1));
    /** For each element of `positions`, the index of the answer line that contains its value. */
    this.answerIndexes = this.positions.map(({ query, line }) => (
      line + lineCounts.slice(0, this.queries.indexOf(query)).reduce((sum, count) => sum + count, 0)));
    this.answerCount = lineCounts.reduce((sum, count) => sum + count, 0);
  }

  /**
   * Returns the indices of the given places in the list of all places.
   * @param {string[]} places
   */
  findIndexes(places) {
    return places.map((place) => this.names.indexOf(place));
  }

  /**
   * Returns the values of all `trace` places, separated by blanks, from the answers to the query lines.
   * @param {PlaceAnswers} placeAnswers
   */
  takeRow(placeAnswers) {
    const { positions, answerIndexes, remainingPlaces: tracedPlaces } = this;
    const first = placeAnswers.nextIndex;
    let row = "";
    for (let index = 0; index < positions.length; index++) {
      const { precedingWord, start, length } = positions[index];
      const answer = placeAnswers.answers[first + answerIndexes[index]];
      const valueStart = precedingWord === "" ? start : answer.indexOf(precedingWord) + precedingWord.length + start;
      row += `${index === 0 ? "" : " "}${length === 0 ? answer.slice(valueStart) : answer.substr(valueStart, length)}`;
    }
    placeAnswers.skip(this.answerCount);
    if (tracedPlaces.names.length === 0) return row;
    return row === "" ? placeAnswers.takeRow(tracedPlaces) : `${row} ${placeAnswers.takeRow(tracedPlaces)}`;
  }
}
