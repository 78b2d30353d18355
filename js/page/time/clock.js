// The clock. At the chip's real speed or below, each animation frame runs the cycles that are due. At full speed, the worker continues on
// its own. Below full speed, no cycles run while the page is hidden, or while the browser or the computer suspends the page. At real
// speed, a key press does not wait for the next frame. The cycles until that frame are simulated early.

import { CYCLES_PER_SECOND } from "../../core/time/mcs4_time.js";
import { MIN_GAP_MS, MAX_EARLY_MS, RealTime } from "../../core/time/real_time.js";
import { REAL_TIME_SPEED, canUserFollowLine, togglesKeys } from "../../core/time/speeds.js";

/**
 * @typedef {import("../../core/board/key_place.js").Key} Key
 * @typedef {import("../../core/time/speeds.js").Speed} Speed
 */

/**
 * The callbacks of the clock.
 * @typedef {object} ClockCalls
 * @property {(cycles: number, key: Key | null) => Promise<void>} advance Presses `key`, unless it is null, and runs cycles. Resolves when
 *   the cycles have run.
 * @property {() => Promise<void>} runInstruction Runs one instruction. Called at the speed of one instruction per second.
 * @property {() => Promise<void>} runAtFullSpeed Starts a run at full speed, which the worker continues on its own.
 * @property {(time: number, wasHidden: boolean) => void} reportStandstill Reports that no cycles ran for `time` milliseconds. The cycles of
 *   that time are skipped. `wasHidden` is true if the page was hidden.
 * @property {(error: unknown) => void} reportFailure Reports an error that a call threw.
 */

export class Clock {
  /** @param {ClockCalls} calls */
  constructor(calls) {
    this.calls = calls;
    this.isRunning = false;
    this.speed = REAL_TIME_SPEED;
    /** True while a call is in progress. */
    this.isBusy = false;
    /** True if a key was pressed since the call in progress began. More cycles then run when that call ends. */
    this.mustRunAgain = false;
    /** The id of the requested animation frame. */
    this.frameRequest = 0;
    this.realTime = new RealTime(0, 0);
  }

  get isAtFullSpeed() {
    return this.speed.isFull;
  }

  /** True if time is running slowly enough for the page to show each source line as it is executed. */
  get isSlow() {
    return this.isRunning && canUserFollowLine(this.speed);
  }

  /** True if key presses and releases are queued until the simulation reaches their time. Otherwise, each press toggles the key. */
  get queuesKeyChanges() {
    return this.isRunning && !togglesKeys(this.speed);
  }

  /** The time in milliseconds up to which cycles have been simulated. */
  get simulatedTime() {
    return this.isAtFullSpeed ? performance.now() : this.realTime.simulatedUntil;
  }

  /**
   * Returns the duration of a number of cycles in milliseconds at the current speed. At full speed and at one instruction per second,
   * returns Infinity, so that lamps show their average brightness.
   * @param {number} cycles
   */
  displayDuration(cycles) {
    return this.isAtFullSpeed || this.speed.isByInstruction ? Infinity : (1000 * cycles) / this.realTime.perSecond;
  }

  start() {
    this.isRunning = true;
    this.continueRun();
  }

  stop() {
    this.isRunning = false;
    cancelAnimationFrame(this.frameRequest);
  }

  /**
   * Sets the speed. If time is running, time continues at this speed.
   * @param {Speed} speed
   */
  setSpeed(speed) {
    this.speed = speed;
    this.realTime.perSecond = speed.isByInstruction ? 1 : CYCLES_PER_SECOND / speed.slowdown;
    if (this.isRunning) this.continueRun();
  }

  continueRun() {
    cancelAnimationFrame(this.frameRequest);
    if (this.isAtFullSpeed) {
      this.calls.runAtFullSpeed().catch(this.calls.reportFailure);
      return;
    }
    this.realTime.restart(performance.now(), Date.now());
    if (document.hidden) this.realTime.hide();
    this.requestFrame();
  }

  /** Records that the page is hidden. */
  handlePageHidden() {
    this.realTime.hide();
  }

  requestFrame() {
    this.frameRequest = requestAnimationFrame((now) => {
      this.requestFrame();
      this.runFrame(now);
    });
  }

  /**
   * Runs the cycles that are due at a key press, without waiting for the next frame. Returns true if the key was sent with these cycles;
   * otherwise the caller must send the key. If a call is in progress, more cycles run when that call ends.
   * @param {Key} key
   */
  simulateKeyPress(key) {
    if (!this.isRunning || this.isAtFullSpeed || this.speed.isByInstruction) return false;
    this.mustRunAgain = this.isBusy;
    return this.runFrame(performance.now(), this.maxEarlyTime, key);
  }

  /** The maximum time in milliseconds that the simulation can run early for a key press. */
  get maxEarlyTime() {
    return this.speed === REAL_TIME_SPEED ? MAX_EARLY_MS : 0;
  }

  /**
   * Starts to run the cycles that are due. Returns false if no cycles are due, if the page is hidden, or if a call is in progress.
   * @param {number} now the current time in milliseconds
   * @param {number} [earlyTime] the number of milliseconds to simulate early
   * @param {Key | null} [key] the key to press before the cycles
   */
  runFrame(now, earlyTime = 0, key = null) {
    // Some browsers still send animation frames to a hidden page. Cycles that become due during a call run in the next frame.
    if (document.hidden || this.isBusy) return false;
    const skippedGap = this.realTime.skipGap(now, Date.now());
    if (skippedGap && skippedGap.gap >= MIN_GAP_MS) this.calls.reportStandstill(skippedGap.gap, skippedGap.wasHidden);
    const dueCycles = this.realTime.takeDueCycles(now, earlyTime);
    if (dueCycles > 0) this.runDueCycles(dueCycles, key);
    return dueCycles > 0;
  }

  /**
   * @param {number} dueCycles
   * @param {Key | null} key
   */
  async runDueCycles(dueCycles, key) {
    this.isBusy = true;
    this.mustRunAgain = false;
    try {
      if (this.speed.isByInstruction) await this.calls.runInstruction();
      else await this.calls.advance(dueCycles, key);
    } catch (error) {
      this.calls.reportFailure(error);
    } finally {
      this.isBusy = false;
    }
    if (this.mustRunAgain && this.isRunning && !this.isAtFullSpeed) this.runFrame(performance.now(), this.maxEarlyTime);
  }
}
