// Proves properties in a separate worker. While the prover works on a question, which can take hours, the worker does not respond.

import { TaskWorker } from "../bench/task_worker.js";

/**
 * @typedef {import("../bench/bench_client.js").Bench} Bench
 * @typedef {import("../bench/task_worker.js").TaskResult} TaskResult
 * @typedef {import("../explore/sliced_search.js").ExploredTexts} ExploredTexts
 * @typedef {import("./bounded_proof.js").PropertyVerdict} PropertyVerdict
 *
 * The progress of a proof. `verdicts` are the verdicts so far. `count` is the number of properties and common mistakes to check. `states`
 * is the number of states that the prover has searched so far without deciding the current question.
 * @typedef {{ verdicts: PropertyVerdict[], count: number, states: number }} Progress
 */

export class Prover extends TaskWorker {
  /** @param {() => Bench} makeBench */
  constructor(makeBench) {
    super(makeBench, true);
  }

  /**
   * Decides all properties, unless the user cancels. Resolves to the result of the task, which says how it ended.
   * @param {ExploredTexts} texts
   * @param {number} maxStates the maximum number of states per question
   * @param {AbortSignal} signal
   * @param {(progress: Progress) => void} report
   * @returns {Promise<TaskResult>}
   */
  prove(texts, maxStates, signal, report) {
    return this.runTask(signal, async (bench) => {
      const { errors, count } = await bench.call("prove", [texts, maxStates]);
      if (errors.length === 0) await reportVerdicts(bench, count, report);
      return errors;
    });
  }
}

/**
 * Asks the worker for the verdicts on all properties and reports each verdict.
 * @param {Bench} bench
 * @param {number} count the number of properties and common mistakes to check
 * @param {(progress: Progress) => void} report
 */
async function reportVerdicts(bench, count, report) {
  /** @type {PropertyVerdict[]} */
  const verdicts = [];
  report({ verdicts, count, states: 0 });
  for (;;) {
    const verdict = await bench.call("proveNext", [], { progress: (states) => report({ verdicts, count, states }) });
    if (!verdict) return;
    verdicts.push(verdict);
    report({ verdicts, count, states: 0 });
  }
}
