// Runs the search for counterexamples in a separate worker.

import { TaskWorker } from "../bench/task_worker.js";

/**
 * @typedef {import("../bench/bench_client.js").Bench} Bench
 * @typedef {import("../bench/task_worker.js").TaskResult} TaskResult
 * @typedef {import("./sliced_search.js").RunOptions} RunOptions
 * @typedef {import("./sliced_search.js").ExploredTexts} ExploredTexts
 * @typedef {import("./sliced_search.js").Progress} Progress
 */

/** The interval between progress reports, in milliseconds. */
const REPORT_INTERVAL = 200;

export class Explorer extends TaskWorker {
  /** @param {() => Bench} makeBench */
  constructor(makeBench) {
    super(makeBench, false);
  }

  /**
   * Searches until the time limit is reached, all properties are decided, or the user stops the search. Resolves to the result of the task,
   * which says how the search ended.
   * @param {ExploredTexts} texts
   * @param {RunOptions} options
   * @param {AbortSignal} signal
   * @param {(progress: Progress) => void} report
   * @returns {Promise<TaskResult>}
   */
  explore(texts, options, signal, report) {
    return this.runTask(signal, async (bench) => {
      const errors = await bench.call("explore", [texts, options]);
      const end = performance.now() + 1000 * options.seconds;
      for (let isDone = errors.length > 0; !isDone && performance.now() < end;) {
        const progress = await bench.call("continueSearch", [REPORT_INTERVAL]);
        report(progress);
        ({ isDone } = progress);
      }
      return errors;
    });
  }
}
