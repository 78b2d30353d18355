// The state that all requests share: the WebAssembly module, and the open session with its debugger.

import { readBoard } from "../bench/answers.js";
import { Face } from "../board/face.js";
import { NO_TALLY, joinTallies } from "../debug/debugger.js";
import { collectWatchNames } from "../debug/watch_expressions.js";
import { SourceMap } from "../machine/source_map.js";
import { sentText } from "../text/sendable_text.js";
import { createProgramFromCheck } from "../waves/wave_program.js";
import { FullSpeed } from "./full_speed.js";
import { findDifference, assembleText } from "./program_check.js";

/**
 * @typedef {import("./examples.js").Example} Example
 * @typedef {import("./program_check.js").ProgramCheck} ProgramCheck
 * @typedef {import("./program_check.js").Program} Program
 * @typedef {import("../bench/protocol.js").Frame} Frame
 * @typedef {import("../debug/common_mistakes.js").Kind} Kind
 * @typedef {import("../bench/protocol.js").LinesReply} LinesReply
 * @typedef {import("../bench/protocol.js").PageState} PageState
 * @typedef {import("../debug/debugger.js").Debugger} Debugger
 * @typedef {import("./engine.js").Engine} Engine
 *
 * The texts that define names for a recording. `values` are the names of registers and RAM nibbles to record in addition to the signal
 * lines of the board. `watched` are the watch expressions.
 * @typedef {{ board: string, program: string, values?: string[], watched?: string[] }} WaveTexts
 *
 * A callback during a long task. It receives the amount of work done and the total amount, and resolves to true to continue the task.
 * @typedef {(done: number, total: number) => Promise<boolean>} ShouldContinue
 */

export class OpenBench {
  /** @param {ShouldContinue} shouldContinue */
  constructor(shouldContinue) {
    this.shouldContinue = shouldContinue;
    /** @type {ArrayBuffer[]} unused buffers for the files that are sent to the page; the page returns the buffers */
    this.spareBuffers = [];
    this.fullSpeed = new FullSpeed();
    /** @type {Engine | null} */
    this.loadedModule = null;
    /** @type {Debugger | null} the debugger of the open session */
    this.currentDebugger = null;
    /** @type {Example[]} */
    this.examples = [];
    /** @type {Kind[]} */
    this.stopKinds = [];
    /** @type {Program | null} the last checked program */
    this.program = null;
  }

  get engine() {
    if (!this.loadedModule) throw new Error("the module is not loaded");
    return this.loadedModule;
  }

  get debugger() {
    if (!this.currentDebugger) throw new Error("no session is open");
    return this.currentDebugger;
  }

  get session() {
    return this.debugger.session;
  }

  /**
   * Returns the current state of the session for the page, with the session file in a transferable buffer. Also returns the changes since
   * the previous call.
   * @param {string[]} snapshot
   * @param {boolean} showsBoard true to include the answer to `board`
   * @returns {PageState}
   */
  takePageState(snapshot, showsBoard) {
    const { file, statusQueries, count, timeline, printerCodes, queue } = this.session;
    const buffer = this.spareBuffers.pop() || new ArrayBuffer(file.length);
    new Uint8Array(buffer).set(file);
    const board = showsBoard ? statusQueries.board : null;
    const waves = this.takeRecordedPart();
    const past = timeline.takeChanges();
    const printed = printerCodes && printerCodes.takeChanges(count.total);
    const { total, reset } = count;
    const futureCount = timeline.future.length;
    return { snapshot, file: buffer, board, total, reset, futureCount, past, waves, printed, waitingChanges: queue.changes };
  }

  /** Returns the part of the recording since the last report; null without a recording. */
  takeRecordedPart() {
    const { session } = this;
    const { recorder, file } = session;
    if (!recorder) return null;
    if (!recorder.isOn) session.recorder = null;
    return recorder.takePart(file);
  }

  /**
   * Executes lines in the session. If the call fails or is cancelled, no line takes effect. Resolves to the result of the lines, with
   * the new state for the page.
   * @param {string} lines
   * @returns {Promise<LinesReply>}
   */
  serve(lines) {
    return this.executeAndReport(() => this.session.serve(lines, (done) => this.shouldContinue(done, lines.length)));
  }

  /**
   * Calls a function that executes lines. Resolves to the result of these lines, together with the new state for the page.
   * @param {() => Promise<import("./worker_session.js").ResultAndSnapshot>} serve
   * @returns {Promise<LinesReply>}
   */
  async executeAndReport(serve) {
    const { reset } = this.session.count;
    const { snapshot, ...result } = await serve();
    this.debugger.commonMistakes.forgetRom();
    // A reset clears the return addresses, so the goal of the current move no longer applies.
    if (this.session.count.reset !== reset) this.debugger.beginMove();
    return { ...result, ...this.takePageState(snapshot, result.hasChangedBoard) };
  }

  /**
   * Returns the reply to a request that executed no lines, with the current state for the page.
   * @returns {LinesReply}
   */
  replyWithoutServing() {
    const report = this.takePageState(this.session.takeSnapshot(), false);
    return { entries: [], firstAnswer: "", status: 0, hasChangedRom: false, hasChangedBoard: false, ...report };
  }

  /**
   * Returns the `map` answer for a program, the error in its text, and its first difference from ROM. If ROM contains the program, later
   * checks for common mistakes use the source map of the program.
   * @param {string} text the text as sent to the bench
   * @returns {ProgramCheck}
   */
  checkProgram(text) {
    if (!this.program || this.program.text !== text) this.program = assembleText(this.engine, text);
    const { map, refusal } = this.program;
    const { file, statusQueries } = this.session;
    const difference = findDifference(this.engine, file, statusQueries.board, this.program);
    const isProgramInRom = refusal === null && difference === null && map.length > 0;
    this.debugger.commonMistakes.map = isProgramInRom ? new SourceMap(map, text) : null;
    return { map, refusal, difference };
  }

  /**
   * Returns the names that conditions can use.
   * @param {{ board: string, program: string, watched?: string[] }} texts
   */
  collectNames({ board, program, watched }) {
    const sentProgram = sentText(program, ";");
    const { map } = this.checkProgram(sentProgram);
    return { face: new Face(board), board: readBoard(this.session.statusQueries.board), map: new SourceMap(map, sentProgram),
      watched: collectWatchNames(watched) };
  }

  /**
   * Returns the texts for a recording, with the program checked against ROM.
   * @param {WaveTexts} texts
   */
  createRecordingTexts({ board, program, values = [] }) {
    return { board, program: createProgramFromCheck(this.checkProgram(sentText(program, ";")), program), values };
  }

  /**
   * Returns the report on the full-speed batches since the previous report.
   * @returns {Frame}
   */
  takePendingFrame() {
    const { tally, ...result } = this.fullSpeed.takeReport();
    const lateTally = { ...NO_TALLY, mistakes: this.debugger.takeLateMistakes() };
    return { ...result, tally: joinTallies(lateTally, tally), ...this.takePageState(this.session.takeSnapshot(), false) };
  }

  /** Runs the debugger's checks of the lines that were executed last. The debugger postpones these checks until the page has its report. */
  checkLastLines() {
    if (this.currentDebugger) this.currentDebugger.checkLastLines();
  }

  /**
   * Runs a batch at full speed. Returns the report, or null if no report is due. A report needs a buffer that the page has returned; this
   * limits the number of unprocessed reports.
   * @returns {Frame | null}
   */
  runBatch() {
    this.fullSpeed.runBatch(this.debugger);
    if (!this.fullSpeed.isReportDue(this.spareBuffers.length > 0)) return null;
    const { snapshot, ...result } = this.fullSpeed.takeReport();
    return { ...result, ...this.session.forecastMeters(), ...this.takePageState(snapshot, false) };
  }
}
