// Parses the bench's forecasts of runs, which are the answers to `trace` and `count` queries.

import { readRun } from "../bench/answers.js";

/**
 * A traced instruction: the number of cycles before it, its address, and the row of traced values after it. In a row, a blank precedes each
 * value.
 * @typedef {{ cycles: number, address: number, row: string }} TracedInstruction
 *
 * The counts of an instruction in a run: how often it started (`startCount`), and how often it jumped (`jumpCount`, -1 if it cannot jump).
 * @typedef {{ address: number, startCount: number, jumpCount: number }} InstructionCount
 *
 * A trace of a run: the row of traced values before the run, the trace lines, and the number of cycles. If the query names places, only the
 * instructions that change the value of a place have lines.
 * @typedef {{ row: string, lines: string[], cycles: number }} Trace
 *
 * The result of a run: the number of cycles, and the reason for its end ("end" if nothing stopped the run).
 * @typedef {{ cycles: number, end: string }} RunResult
 */

const ANSWER_HEAD = /^(?:trace|count) ran (\d+) \w+ lines (\d+)(.*)$/;

/**
 * Parses a trace line, such as `5 00A 1 0`.
 * @param {string} line
 * @returns {TracedInstruction}
 */
export function parseTraceLine(line) {
  const blank = line.indexOf(" ");
  return { cycles: Number(line.slice(0, blank)), address: parseInt(line.slice(blank + 1, blank + 4), 16), row: line.slice(blank + 4) };
}

/**
 * Parses a count line: `00A 12`, or `00A 12 3` for an instruction that can jump.
 * @param {string} line
 * @returns {InstructionCount}
 */
function readCountLine(line) {
  const blank = line.indexOf(" ", 4);
  const startCount = Number(blank < 0 ? line.slice(4) : line.slice(4, blank));
  return { address: parseInt(line.slice(0, 3), 16), startCount, jumpCount: blank < 0 ? -1 : Number(line.slice(blank + 1)) };
}

/**
 * Returns the values in a row of a trace, in the order of the traced places.
 * @param {string} row
 */
export function rowValues(row) {
  return row.slice(1).split(" ");
}

/** Reads the answers in a list one after another. */
export class ForecastAnswers {
  /** @param {string[]} answers */
  constructor(answers) {
    this.answers = answers;
    this.nextIndex = 0;
  }

  get isEmpty() {
    return this.nextIndex === this.answers.length;
  }

  /** Consumes and returns the next answer. */
  take() {
    this.nextIndex += 1;
    return this.answers[this.nextIndex - 1];
  }

  /** @param {number} count the number of answers to skip */
  skip(count) {
    this.nextIndex += count;
  }

  /**
   * Consumes and parses the next trace. Throws if the answer is not a trace.
   * @returns {Trace}
   */
  takeTrace() {
    const answer = this.take();
    const head = ANSWER_HEAD.exec(answer);
    if (!head) throw new Error(`unexpected answer to a question: ${answer}`);
    const from = this.nextIndex;
    this.nextIndex += Number(head[2]);
    return { row: head[3], lines: this.answers.slice(from, this.nextIndex), cycles: Number(head[1]) };
  }

  /** Consumes and parses the next answer to `count`. Returns the counts of the instructions that start in the run. */
  takeCounts() {
    return this.takeTrace().lines.map(readCountLine);
  }

  /**
   * Consumes and parses the next answer to a run. If the bench rejected the run, `end` is the complete answer.
   * @returns {RunResult}
   */
  takeRun() {
    const answer = this.take();
    return readRun(answer) || { cycles: 0, end: answer };
  }
}
