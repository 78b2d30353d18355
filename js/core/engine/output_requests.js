// Requests that start or end the reports on lamps, RAM, the buzzer and the printer. While the machine runs, each frame that the worker
// sends to the page contains these reports.

import { readBoard } from "../bench/answers.js";
import { Face } from "../board/face.js";
import { HeatMeter } from "./heat_meter.js";
import { PrinterCodes } from "./printer_codes.js";
import { BrightnessMeter } from "./brightness_meter.js";
import { BuzzerMeter } from "./buzzer_meter.js";

/**
 * @typedef {import("./open_bench.js").OpenBench} OpenBench
 */

export class OutputRequests {
  /** @param {OpenBench} bench */
  constructor(bench) {
    this.bench = bench;
  }

  /**
   * Starts reports on lamp brightness while the machine runs, if the board has lamps.
   * @param {string} boardText the board text with the front panel
   * @param {number} number the page's number for the front panel; the reports repeat this number
   */
  watchLamps(boardText, number) {
    if (!this.bench.currentDebugger) return;
    const { lamps } = readBoard(this.bench.session.statusQueries.board);
    this.bench.session.brightnessMeter = lamps.length > 0 ? new BrightnessMeter(new Face(boardText), lamps.length, number) : null;
  }

  /**
   * Starts or ends reports on RAM nibbles that change while the machine runs. A board without RAM has no such reports.
   * @param {boolean} isOn
   */
  watchRam(isOn) {
    if (!this.bench.currentDebugger) return;
    const board = readBoard(this.bench.session.statusQueries.board);
    this.bench.session.heatMeter = isOn && board.banks.length > 0 ? new HeatMeter(board) : null;
  }

  /**
   * Starts reports on the edges of a signal line while the machine runs.
   * @param {string} line the signal line; "" ends the reports
   */
  watchBuzzer(line) {
    if (this.bench.currentDebugger) this.bench.session.buzzerMeter = line === "" ? null : new BuzzerMeter(line);
  }

  /**
   * Starts reports on the codes that the program sends to a printer. If this printer is not the current one, starts a new printout.
   * @param {{ strobe: string, port: string } | null} printer the strobe line and the code port of the printer; null ends the reports
   */
  watchPrinter(printer) {
    if (!this.bench.currentDebugger) return;
    const { printerCodes } = this.bench.session;
    if (!printer) this.bench.session.printerCodes = null;
    else if (!printerCodes || !printerCodes.isSamePrinter(printer)) {
      this.bench.session.printerCodes = new PrinterCodes({ ...printer, codes: [] });
    }
  }

  /** Clears the printout. */
  clearPrintout() {
    if (this.bench.session.printerCodes) this.bench.session.printerCodes.clear();
  }
}
