// Runs the debugged session. The machine makes one move at a time, such as a step or a run. A move consists of pieces. If another task is
// requested during a move, it waits until the current piece or the whole move has ended. At each stop, the machine saves the session and
// reports the stop.

import { CancelledError } from "../bench/bench_errors.js";
import { formatCycles } from "../time/cycles.js";
import { CYCLE_MS, FRAME_CYCLES } from "../time/mcs4_time.js";
import { FrontPanelText } from "./front_panel_text.js";
import { fail, errorMessage } from "./dap_protocol.js";
import * as say from "../../words/adapter.js";
import { pausedAt } from "../../words/stops.js";

/**
 * @typedef {import("../debug/debug_session.js").DebugSession} DebugSession
 * @typedef {import("../debug/debug_session.js").DescribedStop} DescribedStop
 * @typedef {import("../debug/debugger.js").Tally} Tally
 * @typedef {import("../debug/goals.js").Goal} Goal
 * @typedef {import("../engine/past_search.js").BackGoal} BackGoal
 * @typedef {import("./session_writer.js").SessionWriter} SessionWriter
 * @typedef {ReturnType<import("./progress.js").Progress["createTask"]>} LongTask
 *
 * The end of a move: the stop reason in the protocol, the message, and the id of the breakpoint that stopped the machine (0 for none).
 * @typedef {{ reason: string, message: string, id: number }} MoveEnd
 */

/**
 * The functions with which a machine reports to the debug adapter.
 * @typedef {object} MachineCallbacks
 * @property {(moveEnd: MoveEnd) => void} handleStop Reports the end of a move, once for each move.
 * @property {(text: string, category: "console" | "stdout" | "stderr") => void} output Prints text that ends with a line feed, in an output
 *   category of the protocol.
 * @property {() => Promise<void>} pause Yields to the event loop, between two pieces of a move.
 * @property {() => void} handleStateChange Reports that the machine state has changed, so that views can update.
 * @property {(title: string) => LongTask} [startTask] Creates the progress report of a move.
 */

/** @type {Record<string, string>} the stop reasons of the protocol, by the debugger's stop reason; "exception" for any other reason */
const PROTOCOL_REASONS = {
  goal: "step", break: "breakpoint", watch: "data breakpoint", pause: "pause", lacks: "step", arrival: "pause", beginning: "entry",
  call: "restart",
};
/** @type {Record<string, string>} the stop reasons after a move back in time, by kind of goal; "goal" for any other kind */
const REASONS_BY_GOAL = { stop: "pause", arrival: "arrival", call: "call" };
/** @type {Record<string, string>} the stop reasons after a search for the last arrival, by the `end` of the search result */
const REASONS_BY_END = { break: "break", change: "watch", beginning: "beginning" };
/** The minimum time between two reports of lamps and displays during a move, in milliseconds. */
const REPORT_INTERVAL_MS = 100;

export class Machine {
  /**
   * @param {DebugSession} session
   * @param {SessionWriter | null} writer the writer of the session's file; null if the session is not saved
   * @param {MachineCallbacks} callbacks
   * @param {boolean} [isRealTime] true if the machine runs no faster than a real 4004
   */
  constructor(session, writer, callbacks, isRealTime = false) {
    this.isRealTime = isRealTime;
    if (isRealTime) session.maxPieceCycles = FRAME_CYCLES;
    /** The start time of the move, in milliseconds. */
    this.startTime = 0;
    this.session = session;
    this.writer = writer;
    this.callbacks = callbacks;
    this.frontPanelText = new FrontPanelText(session);
    this.isMoving = false;
    this.mustPause = false;
    /** Returns whether tasks can use the session between two pieces of the current move. */
    this.allowsTasks = () => false;
    /** @type {(() => Promise<void>)[]} the tasks that wait for the end of a piece or of the move */
    this.waitingTasks = [];
    /** The number of log messages of the current move that have already been reported. */
    this.reportedNoteCount = 0;
    /** The time of the last report of lamps and displays, in milliseconds. */
    this.lastReportTime = 0;
    /** @type {Promise<void>} resolves at the end of the current or last move */
    this.move = Promise.resolve();
    /** @type {LongTask | null} the progress report of the current move; null in real time, because then the lamps show the progress */
    this.task = null;
  }

  // --- moves ---

  /**
   * Starts a run that ends at a goal, or at an earlier stop.
   * @param {Goal | null} goal null to run to the next stop
   */
  runToGoal(goal) {
    const allowsTasks = () => goal === null || this.session.debugger.isMoving;
    const makeMove = () => this.session.runToGoal(goal, (done, tally) => this.finishPiece(tally, done));
    this.beginMove(makeMove, allowsTasks);
  }

  stepInto() {
    this.beginMove(() => this.session.stepInto(), () => false);
  }

  /**
   * Runs to a JMS and steps into the subroutine that it calls.
   * @param {number} address the address of the JMS
   */
  stepIntoCall(address) {
    const { session } = this;
    this.beginMove(async () => {
      if (session.address === address) return session.stepInto();
      const stop = await session.runToGoal({ kind: "here", address }, (done, tally) => this.finishPiece(tally, done));
      if (stop.reason !== "goal") return stop;
      this.reportTally(stop.tally, stop.tally.noteCount - this.reportedNoteCount);
      return session.stepInto();
    }, () => session.debugger.isMoving);
  }

  /**
   * Starts a move back in time.
   * @param {BackGoal} goal
   */
  goBack(goal) {
    let searchedCycles = 0;
    const onPiece = (/** @type {number} */ cycles) => this.finishPiece(undefined, searchedCycles += cycles);
    const makeMove = async () => this.toRunResult(await this.session.goBack(goal, onPiece), REASONS_BY_GOAL[goal.kind] || "goal");
    this.beginMove(makeMove, () => false, say.SEARCHING_BACK);
  }

  goForward() {
    this.beginMove(async () => this.toRunResult(this.session.goForward(), "goal"), () => false);
  }

  /**
   * Creates the result of a run from the result of a move through time. If that move did nothing, prints its message.
   * @param {{ isDone: boolean, message: string, end: string, id: number }} pastMove
   * @param {string} reason the stop reason; "arrival" is replaced by the entry of REASONS_BY_END for `end`
   */
  toRunResult({ isDone, message, end, id }, reason) {
    if (!isDone) this.callbacks.output(`${message}\n`, "console");
    return { reason: REASONS_BY_END[end] && reason === "arrival" ? REASONS_BY_END[end] : reason, message, id, tally: null };
  }

  /**
   * Starts a move. Throws AdapterError if the machine is moving already.
   * @param {() => Promise<Pick<DescribedStop, "reason" | "message" | "id"> & { tally: Tally | null }>} makeMove makes the move
   * @param {() => boolean} allowsTasks returns whether tasks can use the session between two pieces of the move
   * @param {string} [title] the title of the progress report
   */
  beginMove(makeMove, allowsTasks, title = say.RUNNING) {
    if (this.isMoving) fail(say.MACHINE_RUNS_ALREADY);
    this.isMoving = true;
    this.mustPause = false;
    this.allowsTasks = allowsTasks;
    this.reportedNoteCount = 0;
    this.startTime = performance.now();
    this.task = this.isRealTime || !this.callbacks.startTask ? null : this.callbacks.startTask(title);
    this.move = this.runMove(makeMove);
  }

  /**
   * Makes a move, saves the session and reports the end of the move.
   * @param {Parameters<Machine["beginMove"]>[0]} makeMove makes the move
   */
  async runMove(makeMove) {
    /** @type {MoveEnd} */
    let moveEnd;
    try {
      const { reason, message, id, tally } = await makeMove();
      if (tally) this.reportTally(tally, tally.noteCount - this.reportedNoteCount);
      moveEnd = { reason: PROTOCOL_REASONS[reason] || "exception", message, id };
    } catch (thrown) {
      const isPause = thrown instanceof CancelledError;
      if (!isPause) this.callbacks.output(`${errorMessage(thrown)}\n`, "stderr");
      const message = isPause ? pausedAt(this.session.counterText) : errorMessage(thrown);
      moveEnd = { reason: isPause ? "pause" : "exception", message, id: 0 };
    }
    this.allowsTasks = () => false;
    // A task can arrive while the session is saved. The task must run now, because nothing would run it later.
    do {
      await this.runWaitingTasks();
      await this.saveAndReport();
    } while (this.waitingTasks.length > 0);
    if (this.task) this.task.end();
    this.isMoving = false;
    this.callbacks.handleStop(moveEnd);
  }

  /** Reports the lamps and displays, and saves the session. */
  async saveAndReport() {
    this.reportFrontPanelText();
    if (this.writer) await this.save(this.writer);
  }

  /**
   * Saves the session to its file. Prints an error message if this fails.
   * @param {SessionWriter} writer
   */
  async save(writer) {
    try {
      await writer.write(this.session.debugger.session);
    } catch (thrown) {
      this.callbacks.output(`${errorMessage(thrown)}\n`, "stderr");
    }
  }

  /**
   * Finishes a piece of a move: reports its events, yields to the event loop, and runs the waiting tasks if the move allows tasks. Resolves
   * to true if the move continues.
   * @param {Tally} [tally] the tally of the last piece
   * @param {number} [done] the number of cycles of the move so far
   */
  async finishPiece(tally, done = 0) {
    if (tally) this.reportTally(tally, tally.noteCount);
    if (this.task) this.task.reportIfDue(() => formatCycles(done));
    if (performance.now() - this.lastReportTime >= REPORT_INTERVAL_MS && this.allowsTasks()) this.reportFrontPanelText();
    if (this.isRealTime && tally) await this.waitForRealTime(done);
    await this.callbacks.pause();
    if (this.allowsTasks()) await this.runWaitingTasks();
    return !this.mustPause;
  }

  /**
   * Reports the changed machine state. Then waits until a real 4004 would have run the given number of cycles.
   * @param {number} cycles the number of cycles since the start of the move
   */
  async waitForRealTime(cycles) {
    this.callbacks.handleStateChange();
    const remainingTime = cycles * CYCLE_MS - (performance.now() - this.startTime);
    if (remainingTime > 0) await new Promise((resolve) => { setTimeout(resolve, remainingTime); });
  }

  pause() {
    this.mustPause = true;
  }

  // --- tasks between pieces ---

  async runWaitingTasks() {
    for (const task of this.waitingTasks.splice(0)) await task();
  }

  /**
   * Runs a task on the session: at once while the machine is paused, otherwise between two pieces or after the end of the move.
   * @template Result
   * @param {() => Result | Promise<Result>} task
   * @returns {Promise<Result>}
   */
  async runWhenFree(task) {
    if (!this.isMoving) return task();
    return new Promise((resolve, reject) => {
      this.waitingTasks.push(async () => {
        try {
          resolve(await task());
        } catch (thrown) {
          reject(thrown);
        }
      });
    });
  }

  // --- reports ---

  /** Prints the lamps and displays if they have changed. */
  reportFrontPanelText() {
    this.lastReportTime = performance.now();
    const text = this.frontPanelText.takeChange();
    if (text) this.callbacks.output(`${text}\n`, "stdout");
    this.callbacks.handleStateChange();
  }

  /**
   * Prints log messages and common mistakes.
   * @param {Tally} tally
   * @param {number} count the number of log messages to report
   */
  reportTally({ notes, mistakes }, count) {
    this.reportedNoteCount += count;
    if (count > notes.length) this.callbacks.output(`${say.earlierNotesOmitted(count - notes.length)}\n`, "console");
    for (const { text } of notes.slice(notes.length - Math.min(count, notes.length))) this.callbacks.output(`${text}\n`, "console");
    for (const { message } of mistakes) this.callbacks.output(`${message}\n`, "console");
  }
}
