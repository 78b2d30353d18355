// Requests that run the machine, press and release keys while it runs, and start and end full speed.

/**
 * @typedef {import("./open_bench.js").OpenBench} OpenBench
 * @typedef {import("../bench/protocol.js").Frame} Frame
 * @typedef {import("../board/key_place.js").Key} Key
 */

export class TimeRequests {
  /** @param {OpenBench} bench */
  constructor(bench) {
    this.bench = bench;
  }

  /**
   * Runs the next `cycles` cycles, or up to an earlier stop. Returns the result with the new state for the page.
   * @param {number} cycles
   * @param {Key | null} [key] a key to press, after the key changes in the queue
   * @returns {Frame}
   */
  advance(cycles, key = null) {
    if (key) this.press(key);
    const { snapshot, ...result } = this.bench.debugger.advance(cycles, key !== null);
    return { ...result, ...this.bench.takePageState(snapshot, false) };
  }

  /**
   * Queues the press of a key while the machine runs. Returns the queued key changes.
   * @param {Key} key
   */
  press(key) {
    this.bench.session.queue.press(key);
    return this.bench.session.queue.changes;
  }

  /**
   * Queues the release of a key while the machine runs. Returns the queued key changes.
   * @param {Key} key
   */
  release(key) {
    this.bench.session.queue.release(key);
    return this.bench.session.queue.changes;
  }

  /**
   * Removes the queued changes of a key. Returns the changes that are still queued.
   * @param {Key} key
   */
  forget(key) {
    this.bench.session.queue.forget(key);
    return this.bench.session.queue.changes;
  }

  /**
   * Starts to run the machine at full speed.
   * @param {boolean} isHidden true if the page is hidden
   */
  run(isHidden) {
    if (this.bench.spareBuffers.length === 0) this.bench.spareBuffers.push(new ArrayBuffer(this.bench.session.file.length));
    this.bench.fullSpeed.start(isHidden);
  }

  /**
   * Sets whether the page is hidden. At full speed, a hidden page gets fewer reports.
   * @param {boolean} isHidden
   */
  setHidden(isHidden) {
    this.bench.fullSpeed.isHidden = isHidden;
  }

  /**
   * Ends full speed; returns the last report.
   * @returns {Frame}
   */
  halt() {
    const frame = this.bench.takePendingFrame();
    this.bench.fullSpeed.stop();
    this.bench.session.timeline.recordStop();
    return frame;
  }
}
