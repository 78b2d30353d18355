// Requests that record the signal lines of the board.

import { parseTrigger } from "../waves/trigger.js";
import { LiveRecorder } from "./live_recorder.js";
import { recordNextCycles, recordLastCycles } from "./wave_recorder.js";

/**
 * @typedef {import("./open_bench.js").OpenBench} OpenBench
 * @typedef {import("./live_recorder.js").LiveSetup} LiveSetup
 * @typedef {import("./wave_recorder.js").Recording} Recording
 * @typedef {import("./open_bench.js").WaveTexts} WaveTexts
 */

export class RecordingRequests {
  /** @param {OpenBench} bench */
  constructor(bench) {
    this.bench = bench;
  }

  /**
   * Resolves to a recording of the board's signal lines for the next or the last cycles. The session does not change.
   * @param {number} cycles
   * @param {boolean} recordsPast true for the last cycles, false for the next cycles
   * @param {WaveTexts} texts
   */
  record(cycles, recordsPast, texts) {
    const { engine, session } = this.bench;
    const recordedTexts = this.bench.createRecordingTexts(texts);
    /** @type {(done: number) => Promise<boolean>} */
    const shouldContinue = (done) => this.bench.shouldContinue(done, cycles);
    if (recordsPast) return recordLastCycles(engine, session.timeline, cycles, recordedTexts, shouldContinue);
    return recordNextCycles(engine, session.file, cycles, recordedTexts, shouldContinue);
  }

  /**
   * Starts a recording that continues while the machine runs. The recording ends at a call of `endRecording`, or earlier for one of the
   * reasons in LivePart. Returns the start of the recording. Each later report to the page contains the next part as `waves`. If the
   * trigger has an error, nothing is recorded and `error` is the error message.
   * @param {WaveTexts} texts
   * @param {{ trigger: string } & LiveSetup} options
   * @returns {{ recording: Recording | null, error: string }}
   */
  recordLive(texts, options) {
    const { engine, session } = this.bench;
    const recorder = new LiveRecorder(engine, session.file, this.bench.createRecordingTexts(texts));
    const names = this.bench.collectNames(texts);
    const { trigger, error } = parseTrigger(options.trigger, recorder.lines, names);
    if (error) return { recording: null, error };
    recorder.setTrigger(trigger, options);
    session.recorder = recorder;
    return { recording: recorder.takeRecording(session.file), error: "" };
  }

  /** Ends the recording; returns its last part, or null if there is no recording. */
  endRecording() {
    if (this.bench.session.recorder) this.bench.session.recorder.stop("hand");
    return this.bench.takeRecordedPart();
  }
}
