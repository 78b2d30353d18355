// Runs a long task in a separate worker, so that the session worker stays responsive. The separate worker exists only while the task runs.
// Stopping the task terminates the worker at once.

import { WorkerDiedError } from "./bench_errors.js";

/**
 * @typedef {import("./bench_client.js").Bench} Bench
 * @typedef {import("../testing/test_preparation.js").ProjectTextError} ProjectTextError
 *
 * The result of a task. `errors` are the errors in the project's texts that prevented the task. `isStopped` is true if the worker ended
 * before the task was done, for example because the user stopped the task.
 * @typedef {{ errors: ProjectTextError[], isStopped: boolean }} TaskResult
 */

/** A worker for one kind of long task. */
export class TaskWorker {
  /**
   * @param {() => Bench} makeBench
   * @param {boolean} allowsSilence true if a worker that does not answer pings must not be terminated
   */
  constructor(makeBench, allowsSilence) {
    this.makeBench = makeBench;
    this.allowsSilence = allowsSilence;
    /** @type {Bench | null} */
    this.currentBench = null;
  }

  /** The connection to the worker, created on first use. */
  get bench() {
    if (!this.currentBench) {
      this.currentBench = this.makeBench();
      this.currentBench.allowsSilence = this.allowsSilence;
    }
    return this.currentBench;
  }

  /**
   * Starts the worker, runs the task in it, and ends the worker. Rejects if the task fails while the worker is alive.
   * @param {AbortSignal} signal when aborted, terminates the worker at once
   * @param {(bench: Bench) => Promise<ProjectTextError[]>} task
   * @returns {Promise<TaskResult>}
   */
  async runTask(signal, task) {
    const { bench } = this;
    signal.addEventListener("abort", () => bench.end());
    try {
      await bench.start();
      return { errors: await task(bench), isStopped: false };
    } catch (error) {
      if (error instanceof WorkerDiedError) return { errors: [], isStopped: true };
      throw error;
    } finally {
      bench.end();
    }
  }
}
