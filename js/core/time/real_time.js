// Computes how many cycles each frame must simulate to keep up with real time. Time during which the page is hidden or blocked, or the
// computer sleeps, does not count. A key press is simulated at once, up to one frame early; the next frames then simulate fewer cycles.

import { CYCLES_PER_SECOND, FRAME_MS } from "./mcs4_time.js";

/** The maximum number of cycles per frame. A browser that is too slow skips the cycles above this number. */
export const MAX_CYCLES_PER_FRAME = 20000;
/** The maximum time that a key press can be simulated early, in milliseconds: one frame, because lamps change only once per frame. */
export const MAX_EARLY_MS = FRAME_MS;
/** The minimum time between two frames that counts as a gap, in milliseconds. */
export const MIN_GAP_MS = 1000;

export class RealTime {
  /**
   * Starts with no cycles due.
   * @param {number} now the frame clock in milliseconds
   * @param {number} wall the wall clock in milliseconds; it continues while the computer sleeps
   */
  constructor(now, wall) {
    this.lastFrame = now;
    this.lastWall = wall;
    this.wasHidden = false;
    /** The number of cycles that are due; negative after an early key press. */
    this.dueCycles = 0;
    /** The number of cycles (or instructions) per second. */
    this.perSecond = CYCLES_PER_SECOND;
  }

  /** The time up to which the session has been simulated, in milliseconds of the frame clock. */
  get simulatedUntil() {
    return this.lastFrame + (Math.max(0, -this.dueCycles) * 1000) / this.perSecond;
  }

  /**
   * Restarts with no cycles due. Forgets cycles that were simulated early.
   * @param {number} now
   * @param {number} wall
   */
  restart(now, wall) {
    this.lastFrame = now;
    this.lastWall = wall;
    this.wasHidden = false;
    this.dueCycles = 0;
  }

  /** Records that the page is hidden. The next frame then reports a gap. */
  hide() {
    this.wasHidden = true;
  }

  /**
   * Skips the time since the last frame if the page was hidden or blocked, or the computer slept. Returns the length of this gap in
   * milliseconds (`gap`) and whether the page was hidden (`wasHidden`); null if there was no gap.
   * @param {number} now
   * @param {number} wall
   * @returns {{ gap: number, wasHidden: boolean } | null}
   */
  skipGap(now, wall) {
    const { wasHidden } = this;
    const gap = wall - this.lastWall;
    this.lastWall = wall;
    if (!wasHidden && gap < MIN_GAP_MS) return null;
    this.restart(now, wall);
    return { gap, wasHidden };
  }

  /**
   * Returns the number of cycles that are due, and counts them as simulated. Skips the cycles above MAX_CYCLES_PER_FRAME.
   * @param {number} now the frame clock in milliseconds
   * @param {number} [earlyTime] the time to simulate early, in milliseconds
   */
  takeDueCycles(now, earlyTime = 0) {
    this.dueCycles += (Math.max(0, now - this.lastFrame) / 1000) * this.perSecond;
    this.lastFrame = Math.max(now, this.lastFrame);
    if (this.dueCycles > MAX_CYCLES_PER_FRAME) this.dueCycles = MAX_CYCLES_PER_FRAME;
    const cyclesToRun = Math.max(0, Math.floor(this.dueCycles + (earlyTime / 1000) * this.perSecond));
    this.dueCycles -= cyclesToRun;
    return cyclesToRun;
  }
}
