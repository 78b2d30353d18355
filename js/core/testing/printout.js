// Collects the printout of a test: the codes that the program sends to the printer during the test. If the test starts at a saved state,
// the printout begins with the earlier codes.

import { printoutLines } from "../board/printout_lines.js";
import { PrinterCodes } from "../engine/printer_codes.js";

/**
 * @typedef {import("../board/face.js").Printer} Printer
 * @typedef {import("../engine/forecast_answers.js").ForecastAnswers} ForecastAnswers
 */

export class Printout {
  /**
   * @param {Printer} printer
   * @param {number[]} codes the codes printed before the test
   */
  constructor(printer, codes) {
    this.printer = printer;
    this.printerCodes = new PrinterCodes({ ...printer, codes: codes.map((code) => [0, code]) });
  }

  /**
   * Returns the queries that the bench must answer before a run.
   * @param {number} cycles the length of the run
   */
  queries(cycles) {
    return this.printerCodes.queries(cycles);
  }

  /**
   * Adds the codes that are printed in a run.
   * @param {ForecastAnswers} answers the answers of the bench to `queries` before the run
   * @param {number} elapsed the cycles from the start of the test to the run
   */
  readAnswers(answers, elapsed) {
    const from = answers.nextIndex;
    answers.takeTrace();
    this.printerCodes.readCodes([answers.answers.slice(from, answers.nextIndex)], elapsed);
  }

  /** All codes printed so far. */
  get codes() {
    return this.printerCodes.codes.map(([, code]) => code);
  }

  /** The words in the completed lines of the printout. */
  get words() {
    return printoutLines(this.codes, this.printer.words).slice(0, -1).join(" ").split(/\s+/).filter(Boolean);
  }
}
