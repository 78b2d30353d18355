// Collects the codes that a program sends to the printer. Reads the codes from the answer to a `trace` query before each run. Each code is
// stored with the cycle count at which it was sent. Therefore the printout depends only on the session, and a move back in time removes the
// later codes.

import { linesWithQueries, splitAnswers, createReplayLine } from "./forecast_queries.js";
import { RECORDING_PIECE_CYCLES, RECORDING_PIECE_UNITS } from "./piece_size.js";
import { ForecastAnswers, parseTraceLine, rowValues } from "./forecast_answers.js";

/**
 * @typedef {import("./accepted_commands.js").AcceptedCommand} AcceptedCommand
 * @typedef {import("./engine_host.js").EngineHost} Engine
 *
 * The strobe line and the code port of a printer, and the received codes. Each code is a pair: the cycle count at which it was sent, and
 * the code.
 * @typedef {{ strobe: string, port: string, codes: [number, number][] }} PrintoutData
 */

/** The maximum number of stored codes: several hundred printed lines. */
const MAX_CODES = 4000;

export class PrinterCodes {
  /** @param {PrintoutData} data */
  constructor({ strobe, port, codes }) {
    this.strobe = strobe;
    this.port = port;
    this.codes = [...codes];
    /** The number of codes in the last report, and the cycle count of the last code, as text. */
    this.lastReportKey = "";
  }

  copy() {
    return new PrinterCodes(this);
  }

  /** @param {{ strobe: string, port: string }} printer */
  isSamePrinter({ strobe, port }) {
    return this.strobe === strobe && this.port === port;
  }

  /** Clears the printout. */
  clear() {
    this.codes = [];
  }

  /**
   * Returns the printout if it has changed since the previous call, otherwise null. The printout has the codes up to the current cycle.
   * @param {number} total the current cycle count
   * @returns {PrintoutData | null}
   */
  takeChanges(total) {
    const count = this.countAt(total);
    const reportKey = `${count} ${count > 0 ? this.codes[count - 1][0] : ""}`;
    if (reportKey === this.lastReportKey) return null;
    this.lastReportKey = reportKey;
    return { strobe: this.strobe, port: this.port, codes: this.codes.slice(0, count) };
  }

  /**
   * Returns the number of codes that were sent up to a moment.
   * @param {number} cycles the cycle count at that moment
   */
  countAt(cycles) {
    let count = this.codes.length;
    while (count > 0 && this.codes[count - 1][0] > cycles) count -= 1;
    return count;
  }

  // --- The queries before each run ---

  /** The number of queries before each run. */
  get count() {
    return 1;
  }

  /** False because the answers to `state` are not used. */
  get needsStates() {
    return false;
  }

  /**
   * Returns the query to send before a run: a `trace` of the strobe line and the code port.
   * @param {number} cycles the length of the run
   */
  queries(cycles) {
    return `trace ${cycles} ${this.strobe} ${this.port}\n`;
  }

  /**
   * Reads the codes from the answers to the queries before the runs. An instruction takes effect after its first cycle. Removes stored
   * codes that were sent after the cycle `total`, and the oldest codes if there are more than MAX_CODES.
   * @param {string[][]} answerLists one list of answers for each planned line; empty for a line that is not a run
   * @param {number} total the cycle count before the first line
   */
  readCodes(answerLists, total) {
    this.codes.length = this.countAt(total);
    let cyclesBefore = total;
    for (const answers of answerLists) {
      if (answers.length === 0) continue;
      const { row, lines, cycles } = new ForecastAnswers(answers).takeTrace();
      let [level] = rowValues(row);
      for (const line of lines) {
        const tracedInstruction = parseTraceLine(line);
        const [strobe, code] = rowValues(tracedInstruction.row);
        if (level === "0" && strobe === "1") this.codes.push([cyclesBefore + tracedInstruction.cycles + 1, parseInt(code, 16)]);
        level = strobe;
      }
      cyclesBefore += cycles;
    }
    this.codes.splice(0, this.codes.length - MAX_CODES);
  }

  /**
   * Collects the codes that executed lines sent to the printer, by executing these lines again on a copy of the session.
   * @param {Engine} engine
   * @param {Uint8Array} file a copy of the session file before the lines; modified in place
   * @param {AcceptedCommand[]} commands
   * @param {number} total the cycle count before the lines
   */
  collectCodes(engine, file, commands, total) {
    let cyclesBefore = total;
    for (let index = 0; index < commands.length;) {
      const startIndex = index;
      const end = Math.min(commands.length, startIndex + RECORDING_PIECE_UNITS);
      let cycles = 0;
      for (; index < end && cycles < RECORDING_PIECE_CYCLES; index++) cycles += commands[index].cycles;
      const plannedLines = commands.slice(startIndex, index).map(createReplayLine);
      const { answers } = engine.serve(file, linesWithQueries(plannedLines, [this]), file);
      const { sourceAnswers: [answerLists] } = splitAnswers(plannedLines, [this], answers);
      this.readCodes(answerLists, cyclesBefore);
      cyclesBefore += cycles;
    }
  }
}
