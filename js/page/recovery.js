// Recovers from errors: from a failed call to the bench, and from the termination of the bench's worker.

import * as say from "../words/page.js";

/**
 * @typedef {import("../core/bench/bench_client.js").Bench} Bench
 * @typedef {import("../core/bench/protocol.js").Frame} Frame
 * @typedef {import("../core/bench/error_messages.js").ErrorMessages} ErrorMessages
 * @typedef {import("./session/open_session.js").OpenSession} OpenSession
 * @typedef {import("./session/store.js").SessionRecord} SessionRecord
 * @typedef {import("./ui/notice.js").Notice} Notice
 */

/**
 * The callbacks of Recovery.
 * @typedef {object} RecoveryCalls
 * @property {() => OpenSession | null} session Returns the current session, or null if there is none.
 * @property {() => boolean} isRunning Returns true if time is running.
 * @property {() => void} stopClock Stops the page's clock without a request to the worker.
 * @property {(reason: string) => void} showPaused Shows that time is paused, and the reason.
 * @property {(frame: Frame) => void} showLastFrame Shows the last frame of a run that an error interrupted.
 * @property {(record: SessionRecord) => Promise<void>} reopenSession Opens a session in a new worker and shows the session. Rejects if the
 *   new worker also fails.
 */

export class Recovery {
  /**
   * @param {Bench} bench
   * @param {ErrorMessages} errorMessages
   * @param {Notice} notice
   * @param {RecoveryCalls} calls
   */
  constructor(bench, errorMessages, notice, calls) {
    this.bench = bench;
    this.errorMessages = errorMessages;
    this.notice = notice;
    this.calls = calls;
    /** True after a worker was terminated, until a new worker has started in its place. */
    this.isRestarting = false;
  }

  /**
   * Reports a failed call and pauses time. The failed call has not changed the session.
   * @param {unknown} error
   */
  reportFailure(error) {
    const { bench, notice, errorMessages, calls } = this;
    console.error(error);
    // While a new worker starts, pending calls to the old worker still fail. `restart` reports the termination to the user.
    if (this.isRestarting) return;
    notice.show(errorMessages.failureMessage(error));
    if (!calls.session()) return;
    const isRunning = calls.isRunning();
    calls.showPaused(say.PAUSED);
    // Show the state that the run had reached before the error.
    if (isRunning) bench.call("halt", []).then(calls.showLastFrame).catch(() => {});
  }

  /** Starts a new worker after the old one has terminated. The session continues from the last record that the page has. */
  async restart() {
    const { bench, notice, errorMessages, calls } = this;
    this.isRestarting = true;
    calls.stopClock();
    try {
      await bench.start();
      notice.show(say.WORKER_RESTARTED);
      const session = calls.session();
      if (!session) return;
      await calls.reopenSession(session.record);
      this.isRestarting = false;
      calls.showPaused(say.PAUSED);
    } catch (error) {
      notice.show(say.cannotRestartMessage(errorMessages.errorMessage(error)));
    } finally {
      this.isRestarting = false;
    }
  }
}
