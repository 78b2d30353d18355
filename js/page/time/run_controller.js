// Runs and pauses time. At full speed, the worker runs on its own; at other speeds, the page's clock runs the cycles. Handles the frames
// that the worker reports.

import { isRefusalOrStop, readRun, parseRefusal } from "../../core/bench/answers.js";
import { describeUserPause, runningToGoal, pauseMessage } from "../../words/stops.js";
import { Cell, block } from "../ui/dom.js";
import { formatDuration } from "../../core/bench/error_messages.js";
import { PendingKeys } from "../../core/board/pending_keys.js";
import { Sound } from "../board/sound.js";
import { Clock } from "./clock.js";
import { Rate } from "../../core/time/rate.js";
import { REAL_TIME_SPEED } from "../../core/time/speeds.js";
import * as say from "../../words/time.js";

/**
 * @typedef {import("../../core/bench/protocol.js").Frame} Frame
 * @typedef {import("../../core/bench/protocol.js").Stop} Stop
 * @typedef {import("../../core/debug/goals.js").Goal} Goal
 * @typedef {import("../../core/engine/output_requests.js").OutputRequests} OutputRequests
 * @typedef {import("../../core/engine/time_requests.js").TimeRequests} TimeRequests
 * @typedef {import("../../core/engine/travel_requests.js").TravelRequests} TravelRequests
 * @typedef {import("../../core/bench/bench_client.js").Caller<OutputRequests & TimeRequests & TravelRequests>} RunningCaller
 * @typedef {RunningCaller & { isRunning: boolean }} Bench
 * @typedef {import("../session/current_session.js").CurrentSession} CurrentSession
 * @typedef {import("../../core/board/key_place.js").Key} Key
 * @typedef {import("../../core/time/speeds.js").Speed} Speed
 */

/**
 * The callbacks of RunController.
 * @typedef {object} RunControllerCalls
 * @property {() => void} handleRunStart Handles the start of a run.
 * @property {() => void} handleRunEnd Handles the end of a run, after the page shows its final state.
 * @property {(frame: Frame) => void} showFrame Shows a frame, logs its lines, and updates the hit counts of breakpoints.
 * @property {() => void} updateThrottledViews Updates the views that are updated less often while time is running fast.
 * @property {() => void} drawListing Updates the disassembly, which follows the program counter only at slow speeds.
 * @property {() => boolean} isSecondCyclePending Returns true if the second cycle of an instruction is pending.
 * @property {() => number} cycles Returns the total number of cycles in the session.
 * @property {() => string} describeCounter Returns the program counter with its name and its source line, as text.
 * @property {(id: number) => string} describeCondition Returns a description of the condition of the breakpoint with this id.
 * @property {() => number} countInvalidBreakpoints Returns the number of breakpoints whose condition has an error. These breakpoints
 *   stop at every hit.
 * @property {(number: number) => string} describeRefusal Returns the message for a numbered error of the bench.
 * @property {() => Promise<string | null>} step Sends the command for one step to the bench. Resolves to its answer, or to null if the call
 *   failed.
 * @property {(error: unknown) => void} reportFailure Reports an error that a call threw.
 */

/** The interval in milliseconds between saves of the session while time is running. */
const SAVE_INTERVAL_MS = 1000;
/** The time in milliseconds for which the message about a standstill stays. */
const STANDSTILL_MESSAGE_MS = 8000;

export class RunController {
  /**
   * @param {Bench} bench
   * @param {CurrentSession} currentSession
   * @param {RunControllerCalls} calls
   */
  constructor(bench, currentSession, calls) {
    this.bench = bench;
    this.currentSession = currentSession;
    this.calls = calls;
    /** @type {(reason: string) => void} called with the reason when a run has ended without a request by the user */
    this.onRunEnd = () => {};
    /** @type {(isRunning: boolean) => void} called when time resumes or pauses */
    this.showRunning = () => {};
    /** @type {Goal | null} the goal of the run, or null if it has none */
    this.goal = null;
    /** The total cycle count at the start of the run. */
    this.startCycles = 0;
    this.rate = new Rate(0);
    this.clock = this.makeClock();
    this.pendingKeys = new PendingKeys();
    this.sound = new Sound({
      listenToLine: (line) => {
        bench.call("watchBuzzer", [line]).catch(calls.reportFailure);
      },
      isRealTime: () => this.clock.speed === REAL_TIME_SPEED,
    });
    this.status = new Cell(block("status"));
    this.rateStatus = new Cell(block("rate"));
  }

  makeClock() {
    const { bench, calls } = this;
    return new Clock({
      advance: (cycles, key) => this.advance(cycles, key),
      runInstruction: () => this.runInstruction(),
      runAtFullSpeed: () => bench.call("run", [document.hidden]),
      reportStandstill: (time, wasHidden) => this.reportStandstill(time, wasHidden),
      reportFailure: calls.reportFailure,
    });
  }

  /** True if time is running too fast for the page to show each source line as it is executed. */
  get isFast() {
    return this.clock.isRunning && !this.clock.isSlow;
  }

  /** @param {string} message the text of the status line */
  showMessage(message) {
    // A narrow status bar truncates long messages, so the tooltip shows them in full.
    if (this.status.set(message)) this.status.node.title = message;
  }

  /** Starts a new measurement of the simulation rate. */
  startRateMeasurement() {
    this.rate = new Rate(this.clock.simulatedTime);
    this.showRate();
  }

  showRate() {
    const rate = Math.round(this.rate.perSecond);
    this.rateStatus.set(this.clock.isRunning && rate > 0 ? say.cyclesASecond(rate.toLocaleString("en")) : "");
  }

  /** @param {Goal | null} [goal] the goal of the run; the bench has already received it */
  run(goal = null) {
    const { bench, currentSession, calls } = this;
    if (!currentSession.session || this.clock.isRunning) return;
    currentSession.session.record.runs = true;
    this.goal = goal;
    this.storeGoal(goal);
    this.startCycles = calls.cycles();
    calls.handleRunStart();
    if (!goal) bench.call("dropGoal", []).catch(calls.reportFailure);
    this.showRunning(true);
    this.showMessage(goal ? runningToGoal(goal) : say.runningMessage(currentSession.name, calls.countInvalidBreakpoints()));
    this.clock.start();
    this.startRateMeasurement();
    bench.isRunning = this.clock.isAtFullSpeed;
    currentSession.save();
  }

  /**
   * @param {Goal | null} goal the goal of the run; null if it has none. The goal is saved with the session, so that the page can report
   *   after a reload that the run was interrupted
   */
  storeGoal(goal) {
    const { session } = this.currentSession;
    if (!session) return;
    if (goal) session.record.goal = goal;
    else delete session.record.goal;
  }

  /** Discards the goal of the run after a reset. For example, the goal may be the return from a subroutine that no longer runs. */
  discardGoal() {
    this.goal = null;
  }

  /** Resumes or pauses time at the user's request. */
  continueOrPause() {
    this.currentSession.markChanged();
    if (this.clock.isRunning) this.pauseRun();
    else this.run();
  }

  /** @param {Speed} speed */
  async setSpeed(speed) {
    const { bench } = this;
    if (!speed.isFull && this.clock.isAtFullSpeed && this.clock.isRunning) this.handleFrame(await bench.call("halt", []));
    this.clock.setSpeed(speed);
    this.sound.update();
    this.startRateMeasurement();
    bench.isRunning = speed.isFull && this.clock.isRunning;
    this.calls.drawListing();
  }

  /**
   * @param {number} cycles
   * @param {Key | null} key the key to press before the cycles, or null to press no key
   */
  async advance(cycles, key) {
    const removePending = key ? this.pendingKeys.addInTransit({ word: "press", key }) : () => {};
    const frame = await this.bench.call("advance", [cycles, key]).finally(removePending);
    this.handleFrame(frame);
  }

  /** Runs one instruction, which can take two cycles. Breakpoints and watches can stop it, as in any other run. */
  async runInstruction() {
    const { bench, calls } = this;
    this.handleFrame(await bench.call("advance", [1]));
    if (this.clock.isRunning && calls.isSecondCyclePending()) this.handleFrame(await bench.call("advance", [1]));
  }

  /** @param {boolean} isHidden */
  setHidden(isHidden) {
    const { bench, currentSession, calls } = this;
    if (isHidden) this.clock.handlePageHidden();
    if (this.clock.isAtFullSpeed && this.clock.isRunning) bench.call("setHidden", [isHidden]).catch(calls.reportFailure);
    if (isHidden) currentSession.saveNow();
  }

  /**
   * Reports that no cycles ran for some time. The message stays for STANDSTILL_MESSAGE_MS. Restarts the measurement of the simulation rate.
   * @param {number} time the duration in milliseconds
   * @param {boolean} wasHidden true if the page was hidden
   */
  reportStandstill(time, wasHidden) {
    this.startRateMeasurement();
    const message = say.wasPausedFor(formatDuration(time), wasHidden);
    this.showMessage(message);
    setTimeout(() => {
      if (this.status.text !== message) return;
      this.showMessage(say.runningMessage(this.currentSession.name, this.calls.countInvalidBreakpoints()));
    }, STANDSTILL_MESSAGE_MS);
  }

  /**
   * Ends the run and shows why time is paused.
   * @param {string} reason
   */
  endRun(reason) {
    const { bench, currentSession, calls } = this;
    this.clock.stop();
    this.goal = null;
    bench.isRunning = false;
    if (currentSession.session) currentSession.session.record.runs = false;
    this.storeGoal(null);
    this.showRunning(false);
    this.showMessage(reason);
    this.showRate();
    calls.updateThrottledViews();
    calls.drawListing();
    calls.handleRunEnd();
  }

  /** Stops the clock and the worker's run, and handles the last frame. */
  async stopRun() {
    if (!this.clock.isRunning) return;
    this.clock.stop();
    this.bench.isRunning = false;
    this.handleFrame(await this.bench.call("halt", []));
  }

  /** Pauses time, shows the current address, and saves the session. */
  async pauseRun() {
    const { currentSession, calls } = this;
    try {
      await this.stopRun();
    } catch (error) {
      calls.reportFailure(error);
      return;
    }
    // A breakpoint may already have stopped the run.
    if (currentSession.session && currentSession.session.record.runs) {
      calls.updateThrottledViews();
      this.endRun(describeUserPause(this.goal, calls.cycles() - this.startCycles, this.counterText));
    }
    await currentSession.save();
  }

  /** Pauses time if it is running. */
  async pause() {
    if (this.clock.isRunning) await this.pauseRun();
  }

  /**
   * Shows a frame from the worker. Ends the run if the frame has a stop. Saves the session when a save is due.
   * @param {Frame} frame
   */
  handleFrame(frame) {
    const { currentSession } = this;
    const isNewRate = this.rate.add(frame.cycles, this.clock.simulatedTime);
    if (frame.stop) this.clock.stop();
    this.sound.playLevels(frame.buzzerLevels);
    this.calls.showFrame(frame);
    if (frame.stop) {
      this.endRun(this.describeStop(frame.stop));
      this.onRunEnd(frame.stop.reason);
      currentSession.save();
      return;
    }
    if (isNewRate || !this.clock.isRunning) this.showRate();
    // A key change is saved at once. A hidden page receives one frame per second and saves after each frame.
    if (frame.changesKeys || document.hidden || performance.now() - currentSession.lastSaveTime >= SAVE_INTERVAL_MS) currentSession.save();
  }

  /** The program counter with its name in the source and its source line, as text. */
  get counterText() {
    return this.calls.describeCounter();
  }

  /**
   * @param {Omit<Stop, "id"> & { id?: number }} stop
   * @param {Goal | null} [goal]
   */
  describeStop(stop, goal = this.goal) {
    const refusal = parseRefusal(stop.reason);
    if (refusal) return say.pausedBy(stop.reason, this.calls.describeRefusal(refusal.number));
    return pauseMessage(goal, stop, this.counterText, this.calls.describeCondition(stop.id || 0));
  }

  async stepOnce() {
    if (this.clock.isRunning) await this.pauseRun();
    const answer = await this.calls.step();
    if (answer === null) return;
    const run = readRun(answer);
    const cycles = run ? run.cycles : 0;
    if (isRefusalOrStop(answer)) this.showMessage(this.describeStop({ reason: run ? run.end : answer, cycles, endsAtReturn: false }));
    else this.showMessage(pauseMessage({ kind: "over" }, { reason: "goal", cycles, endsAtReturn: false }, this.counterText));
  }

  /**
   * Queues a key change while time is running. Below full speed, a press is simulated at once if cycles are due.
   * @param {"press" | "release" | "forget"} word `forget` discards the queued changes of the key
   * @param {Key} key
   */
  queueKeyChange(word, key) {
    const { bench, currentSession, calls } = this;
    currentSession.markChanged();
    if (word === "press" && this.clock.simulateKeyPress(key)) return;
    const removePending = this.pendingKeys.addInTransit({ word, key });
    bench.call(word, [key]).finally(removePending).then((waitingChanges) => {
      this.pendingKeys.waitingChanges = waitingChanges;
    }, calls.reportFailure);
  }

  /**
   * Returns true if a key will be down after all queued presses and releases. If no press or release is queued, returns `isDown`.
   * @param {Key} key
   * @param {boolean} isDown true if the bench reports the key as down
   */
  willBeDown(key, isDown) {
    return this.clock.queuesKeyChanges ? this.pendingKeys.willBeDown(key, isDown) : isDown;
  }
}
