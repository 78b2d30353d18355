// Runs a test at the request of an editor. If the test starts at a state that another test saves, the other test runs first. For an open
// text, uses the text in the editor instead of the file.

import { CancelledError } from "../bench/bench_errors.js";
import { runTests } from "../testing/test_suite.js";
import { locateError, decodeFileName } from "./dependent_language.js";
import { REQUEST_CANCELLED, ProtocolError } from "./lsp_protocol.js";
import { CANCELLED } from "../../words/bench.js";
import * as say from "../../words/server.js";

/**
 * @typedef {import("./dependent_language.js").DependencyTexts} DependencyTexts
 * @typedef {import("./diagnostics.js").ShownError} ShownError
 * @typedef {import("./open_text.js").OpenText} OpenText
 *
 * The result of a test: a message, whether the test passed, and its failure (null for none). The failure is the error in the failed line,
 * with the URI of the test file.
 * @typedef {{ message: string, hasPassed: boolean, failure: { uri: string, error: ShownError } | null }} TestResult
 */

/**
 * Returns the result for a test that did not run.
 * @param {string} reason
 * @returns {TestResult}
 */
const createNotRunResult = (reason) => ({ message: reason, hasPassed: false, failure: null });

export class TestRuns {
  /**
   * @param {import("../engine/engine_host.js").EngineHost} engine
   * @param {(number: number) => string} refusalMessage returns the message for an error number of the bench
   * @param {(uri: string) => DependencyTexts} findDependencies
   * @param {() => Promise<void>} pause yields to other tasks
   */
  constructor(engine, refusalMessage, findDependencies, pause) {
    this.engine = engine;
    this.refusalMessage = refusalMessage;
    this.findDependencies = findDependencies;
    this.pause = pause;
    /** The number of the current run. A new run cancels the previous run. */
    this.runNumber = 0;
  }

  /**
   * Runs a test, and resolves to its result. Throws ProtocolError if the run is cancelled.
   * @param {OpenText} openText
   * @param {string} name the name of the test
   * @param {import("./connection.js").PendingRequest} pending the request; the client can cancel it
   * @returns {Promise<TestResult>}
   */
  async run({ uri, lines, text }, name, pending) {
    this.runNumber += 1;
    const { runNumber } = this;
    const { board, program, tests } = this.findDependencies(uri);
    const missingFile = [board, program].find((dependency) => dependency.text === null);
    if (missingFile) return createNotRunResult(say.missingDependency(decodeFileName(missingFile.uri)));
    const sources = tests.map((namedText) => ({ name: namedText.uri, text: namedText.uri === uri ? text : namedText.text || "" }));
    const shouldContinue = async () => {
      await this.pause();
      return runNumber === this.runNumber && !pending.isCancelled;
    };
    const texts = { boardText: board.text || "", programText: program.text || "", sources };
    const { errors, outcomes } = await this.runOneTest(texts, shouldContinue, { name, source: uri });
    if (errors.length > 0) return createNotRunResult(this.describeError(errors[0], { board, program, tests }));
    const failedTest = outcomes.find(({ failure }) => failure !== null);
    if (outcomes.length === 0) return createNotRunResult(say.noTestMessage(name));
    if (!failedTest || !failedTest.failure) return { message: say.testPassed(name), hasPassed: true, failure: null };
    const { source, line, words } = failedTest.failure;
    const message = say.testFailed(failedTest.name, line, words);
    return { message, hasPassed: false, failure: { uri: source, error: locateError(lines, { line, column: -1, words: message }) } };
  }

  /**
   * Runs one test, and resolves to the outcomes of all tests that ran for it. Throws ProtocolError if the run is cancelled.
   * @param {import("../testing/test_suite.js").TestedTexts} texts
   * @param {() => Promise<boolean>} shouldContinue
   * @param {{ name: string, source: string }} selectedTest the name of the test, and the URI of its file
   */
  async runOneTest(texts, shouldContinue, selectedTest) {
    try {
      return await runTests(this.engine, texts, shouldContinue, { selectedTest });
    } catch (error) {
      throw error instanceof CancelledError ? new ProtocolError(REQUEST_CANCELLED, CANCELLED) : error;
    }
  }

  /**
   * Returns the message about an error that prevents a test run.
   * @param {import("../testing/test_preparation.js").ProjectTextError} error
   * @param {DependencyTexts} dependencies
   */
  describeError({ text, file = "", line, number, words }, { board, program }) {
    const name = text === "board" ? board.uri : text === "program" ? program.uri : file;
    return say.notRunMessage(decodeFileName(name), line, words || this.refusalMessage(number));
  }
}
