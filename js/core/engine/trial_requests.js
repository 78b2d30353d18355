// Requests that run tests and search for counterexamples. They use temporary sessions and do not change the open session.

import { SlicedSearch, parseSearchTexts, prepareSearch } from "../explore/sliced_search.js";
import { createSampleTest } from "../testing/sample_test.js";
import { parseTestedTexts, runTests } from "../testing/test_suite.js";

/**
 * @typedef {import("./open_bench.js").OpenBench} OpenBench
 */

export class TrialRequests {
  /** @param {OpenBench} bench */
  constructor(bench) {
    this.bench = bench;
    /** @type {SlicedSearch | null} the search in progress */
    this.currentSearch = null;
  }

  /**
   * Returns the errors in a test text, or in its board and program.
   * @param {import("../testing/test_suite.js").TestedTexts} texts
   */
  findTestErrors(texts) {
    return parseTestedTexts(this.bench.engine, texts).errors;
  }

  /**
   * Returns a sample test for a board and its program.
   * @param {import("../testing/test_preparation.js").Texts} texts
   */
  createSampleTest(texts) {
    return createSampleTest(this.bench.engine, texts);
  }

  /**
   * Runs tests in separate sessions. Resolves to their results.
   * @param {import("../testing/test_suite.js").TestedTexts} texts
   */
  runTests(texts) {
    return runTests(this.bench.engine, texts, (done, total) => this.bench.shouldContinue(done, total));
  }

  /**
   * Returns the errors in a properties text, or in its board and program.
   * @param {import("../explore/sliced_search.js").ExploredTexts} texts
   */
  findPropertyErrors(texts) {
    return parseSearchTexts(this.bench.engine, texts).errors;
  }

  /**
   * Starts a search for counterexamples. Resolves to the errors in the texts.
   * @param {import("../explore/sliced_search.js").ExploredTexts} texts
   * @param {import("../explore/sliced_search.js").RunOptions} options
   */
  async explore(texts, options) {
    const { searchSetup, errors } = await prepareSearch(this.bench.engine, texts);
    this.currentSearch = searchSetup && new SlicedSearch(this.bench.engine, texts, searchSetup, options, async () => {
      await this.bench.shouldContinue(0, 1);
    });
    return errors;
  }

  /**
   * Continues the search for a number of milliseconds, or until it finds a counterexample. Resolves to the progress of the search. Throws
   * an error if no search has started.
   * @param {number} milliseconds
   */
  continueSearch(milliseconds) {
    if (!this.currentSearch) throw new Error("no search has started");
    return this.currentSearch.runFor(milliseconds);
  }
}
