// Requests that open a session, execute lines in it, or answer queries.

import { BenchRefusal } from "../bench/bench_errors.js";
import { NO_TALLY, Debugger } from "../debug/debugger.js";
import { CycleCount } from "./accepted_commands.js";
import { PrinterCodes } from "./printer_codes.js";
import { WorkerSession } from "./worker_session.js";

/**
 * @typedef {import("./open_bench.js").OpenBench} OpenBench
 * @typedef {import("../bench/protocol.js").LinesReply} LinesReply
 * @typedef {import("../bench/protocol.js").TypedReply} TypedReply
 */

export class SessionRequests {
  /** @param {OpenBench} bench */
  constructor(bench) {
    this.bench = bench;
  }

  /**
   * Opens a session, which replaces the current one. Returns its state for the page.
   * @param {Uint8Array} file
   * @param {number} [totalCycles] the cycle count
   * @param {number} [resetCycles] the cycle count at the last reset
   * @param {import("./printer_codes.js").PrintoutData | null} [printout]
   */
  open(file, totalCycles = 0, resetCycles = 0, printout = null) {
    const session = new WorkerSession(this.bench.engine, file, new CycleCount(totalCycles, resetCycles));
    session.printerCodes = printout && new PrinterCodes(printout);
    const snapshot = session.takeSnapshot();
    this.bench.currentDebugger = new Debugger(session);
    this.bench.currentDebugger.commonMistakes.stoppingKinds = new Set(this.bench.stopKinds);
    this.bench.fullSpeed.stop();
    return this.bench.takePageState(snapshot, true);
  }

  /**
   * Restores the history that the page has stored for this session. Returns the number of entries used from the last stored segment.
   * Returns -1 if the stored history does not end with the state of this session.
   * @param {import("./timeline.js").StoredSegment[]} segments
   */
  restorePast(segments) {
    try {
      return this.bench.session.timeline.restorePast(this.bench.engine, segments);
    } catch (error) {
      // The stored bytes are not a valid session file.
      if (error instanceof BenchRefusal) return -1;
      throw error;
    }
  }

  /**
   * Executes lines in the session. If the call fails or is cancelled, no line takes effect. Resolves to the result of the lines.
   * @param {string} lines
   * @returns {Promise<LinesReply>}
   */
  serve(lines) {
    return this.bench.serve(lines);
  }

  /**
   * Executes lines that the user typed. If the call fails or is cancelled, no line takes effect. A `run` command in these lines ends at the
   * first breakpoint.
   * @param {string} lines
   * @returns {Promise<TypedReply>}
   */
  async serveTypedLines(lines) {
    const typedResult = { id: 0, reason: "", change: "", cutLine: "", cycles: 0, tally: NO_TALLY };
    const result = await this.bench.executeAndReport(async () => {
      const typedReply = await this.bench.debugger.serveTypedLines(lines, (done) => this.bench.shouldContinue(done, lines.length));
      Object.assign(typedResult, typedReply.typedResult);
      return typedReply.result;
    });
    return { ...result, typedResult };
  }

  /**
   * Returns the answers to queries.
   * @param {string} lines
   */
  ask(lines) {
    return this.bench.session.ask(lines);
  }
}
