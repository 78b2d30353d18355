// Requests that prove properties with the prover in the WebAssembly module.

import { beginProving, createPropertyVerdict } from "../prove/bounded_proof.js";

/**
 * @typedef {import("./open_bench.js").OpenBench} OpenBench
 */

export class ProofRequests {
  /** @param {OpenBench} bench */
  constructor(bench) {
    this.bench = bench;
    /** @type {import("../prove/property_judge.js").PropertyJudge | null} the proof in progress; null if none has started */
    this.currentJudge = null;
  }

  /**
   * Starts to prove the properties in the properties text, and the absence of common mistakes. Returns the errors in the texts, and the
   * number of properties to decide.
   * @param {import("../explore/sliced_search.js").ExploredTexts} texts
   * @param {number} maxStates the maximum number of states per prover question
   */
  prove(texts, maxStates) {
    const { bench } = this;
    const { judge, errors } = beginProving(bench.engine, texts, maxStates, {
      reportStates: async (states) => {
        await bench.shouldContinue(states, maxStates);
      },
      yieldToMessages: async () => {
        await bench.shouldContinue(0, maxStates);
      },
    });
    this.currentJudge = judge;
    return { errors, count: judge ? judge.total : 0 };
  }

  /**
   * Decides the next property. Resolves to the property with its verdict, or to null if no property is left. Rejects if no proof has
   * started.
   */
  async proveNext() {
    if (!this.currentJudge) throw new Error("no proof has started");
    const judgedProperty = await this.currentJudge.judgeNext();
    return judgedProperty && createPropertyVerdict(judgedProperty);
  }
}
