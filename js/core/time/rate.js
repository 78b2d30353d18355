// Measures how many cycles per second a session runs. Each measurement takes at least half a second.

/** The minimum duration of a measurement, in milliseconds. */
const MIN_DURATION_MS = 500;

export class Rate {
  /** @param {number} now the current time in milliseconds */
  constructor(now) {
    this.startTime = now;
    this.cycles = 0;
    /** The number of cycles per second; 0 before the first measurement. */
    this.perSecond = 0;
  }

  /**
   * Adds cycles. Returns true if `perSecond` has a new value.
   * @param {number} cycles
   * @param {number} now the current time in milliseconds
   */
  add(cycles, now) {
    this.cycles += cycles;
    const time = now - this.startTime;
    if (time < MIN_DURATION_MS) return false;
    this.perSecond = (this.cycles / time) * 1000;
    this.startTime = now;
    this.cycles = 0;
    return true;
  }
}
