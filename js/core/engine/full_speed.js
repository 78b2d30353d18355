// Runs the machine at full speed in the worker, in batches of cycles, and decides when to report to the page.

import { RunLog } from "../bench/run_log.js";
import { NO_TALLY, joinTallies } from "../debug/debugger.js";

/**
 * @typedef {import("../debug/debugger.js").DebugFrame} DebugFrame
 * @typedef {{ advance: (cycles: number) => DebugFrame }} Machine
 */

/** The target duration of a batch, in milliseconds. */
const BATCH_MILLISECONDS = 50;
/** The minimum and maximum number of cycles in a batch. */
const MIN_BATCH_CYCLES = 50000;
const MAX_BATCH_CYCLES = 8000000;
/** The interval between reports to a hidden page, in milliseconds. The page saves the session at each report. */
const HIDDEN_REPORT_INTERVAL_MS = 1000;

/**
 * Returns an empty report. `end` is the answer that ended the run early ("" for none), `stop` is the reason why the machine stopped, and
 * `tally` contains the breakpoint events. The batches do not measure the lamps (`litShares`), the buzzer (`buzzerLevels`) or RAM changes
 * (`chipHeat`).
 * @returns {Omit<DebugFrame, "runEntries">}
 */
function createEmptyFrame() {
  return {
    cycles: 0, end: "", stop: null, tally: NO_TALLY, changesKeys: false, snapshot: [], litShares: null, buzzerLevels: null, chipHeat: null,
  };
}

export class FullSpeed {
  constructor() {
    this.isOn = false;
    this.isHidden = false;
    this.batchCycles = MIN_BATCH_CYCLES;
    this.lastReportTime = 0;
    this.runLog = new RunLog();
    this.pendingReport = createEmptyFrame();
  }

  /**
   * Starts to run the machine at full speed.
   * @param {boolean} isHidden true if the page is hidden; it then gets fewer reports
   */
  start(isHidden) {
    this.isOn = true;
    this.isHidden = isHidden;
    this.takeReport();
  }

  stop() {
    this.isOn = false;
  }

  /**
   * Runs one batch, adds its result to the pending report, and adapts the size of the next batch.
   * @param {Machine} machine
   */
  runBatch(machine) {
    const start = performance.now();
    const frame = machine.advance(this.batchCycles);
    const milliseconds = performance.now() - start;
    this.runLog.add(frame.runEntries);
    const { cycles, changesKeys, tally } = this.pendingReport;
    const { end, stop, snapshot } = frame;
    this.pendingReport = {
      cycles: cycles + frame.cycles, end, stop, snapshot, tally: joinTallies(tally, frame.tally),
      changesKeys: changesKeys || frame.changesKeys,
      litShares: null,
      buzzerLevels: null,
      chipHeat: null,
    };
    if (stop) this.isOn = false;
    const targetCycles = this.batchCycles * Math.min(2, Math.max(0.5, BATCH_MILLISECONDS / Math.max(1, milliseconds)));
    this.batchCycles = Math.round(Math.min(MAX_BATCH_CYCLES, Math.max(MIN_BATCH_CYCLES, targetCycles)));
  }

  /**
   * Returns whether to send a report to the page now. At the end of full speed, the last report is always due.
   * @param {boolean} isPageReady true if the page is ready for another report
   */
  isReportDue(isPageReady) {
    if (!this.isOn) return true;
    if (!isPageReady) return false;
    return !this.isHidden || this.pendingReport.changesKeys || performance.now() - this.lastReportTime >= HIDDEN_REPORT_INTERVAL_MS;
  }

  /**
   * Returns the report on all batches since the previous report, and starts a new one.
   * @returns {DebugFrame}
   */
  takeReport() {
    this.lastReportTime = performance.now();
    const { pendingReport } = this;
    this.pendingReport = createEmptyFrame();
    return { ...pendingReport, runEntries: this.runLog.take() };
  }
}
