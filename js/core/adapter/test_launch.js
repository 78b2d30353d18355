// Starts a debug session for a test. The test runs first. Then a new session repeats the commands of the test. From the failure, or from
// the end, the user can then go back in time to the start of the test.

import { DebugSession } from "../debug/debug_session.js";
import { MAX_RUN_CYCLES } from "../engine/key_queue.js";
import { findDependencies } from "../server/text_kinds.js";
import { formatFailureLine } from "../testing/tap.js";
import { runTests } from "../testing/test_suite.js";
import { AdapterError } from "./dap_protocol.js";
import * as say from "../../words/adapter.js";

/**
 * @typedef {import("../engine/engine_host.js").EngineHost} Engine
 * @typedef {import("../testing/test_session.js").TestSession} TestSession
 * @typedef {import("../testing/test_suite.js").TestedTexts} TestedTexts
 *
 * The name of a test, and the absolute names of its files. `file` is the file that contains the test. `tests` are the project's test files,
 * in order, up to `file`.
 * @typedef {{ name: string, file: string, tests: string[], board: string, program: string }} TestFiles
 */

/** @type {(name: string) => string} returns the URI of a file name */
export const fileUri = (name) => `file://${name.split("/").map(encodeURIComponent).join("/")}`;
/** @type {(uri: string) => string} returns the file name of a URI; the inverse of `fileUri` */
export const uriFileName = (uri) => decodeURIComponent(uri.slice("file://".length));

/**
 * Returns the files of a test: the files of its project, or else the files in its folder.
 * @param {string} name the name of the test
 * @param {string} file the absolute name of its file
 * @param {(name: string) => string | null} read returns the text of a file; null if it cannot be read
 * @returns {TestFiles}
 */
export function findTestFiles(name, file, read) {
  const { board, program, tests } = findDependencies(fileUri(file), (uri) => read(uriFileName(uri)));
  return { name, file, tests: tests.map(uriFileName), board: uriFileName(board), program: uriFileName(program) };
}

/**
 * Returns the bench lines that repeat the commands of a test run.
 * @param {TestSession} session
 */
function createReplayLines({ actions }) {
  return actions.map(({ line, cycles }) => {
    if (line !== "run") return `${line}\n`;
    const fullRuns = `run ${MAX_RUN_CYCLES}\n`.repeat(Math.floor(cycles / MAX_RUN_CYCLES));
    return cycles % MAX_RUN_CYCLES > 0 ? `${fullRuns}run ${cycles % MAX_RUN_CYCLES}\n` : fullRuns;
  }).join("");
}

/**
 * Runs a test. Resolves to a session that has run the same commands, and to the test result as text. Throws AdapterError if the tests have
 * errors, or if the test does not exist or cannot start.
 * @param {Engine} engine
 * @param {TestedTexts} texts
 * @param {TestFiles} test
 * @param {() => Promise<void>} pause yields to the event loop
 */
export async function createTestSession(engine, texts, { name, file }, pause) {
  /** @type {TestSession[]} */
  const sessions = [];
  const shouldContinue = () => pause().then(() => true);
  const options = { selectedTest: { name, source: file }, handleTestEnd: (/** @type {TestSession} */ session) => sessions.push(session) };
  const { errors: [error], outcomes } = await runTests(engine, texts, shouldContinue, options);
  if (error) throw new AdapterError(say.testsHaveError(error.file || error.text, error.line, error.words || ""), true);
  const outcome = outcomes.pop();
  const testSession = sessions.pop();
  if (!outcome) throw new AdapterError(say.noSuchTestMessage(name, file), true);
  if (!testSession || (outcome.failure && !outcome.failure.file)) throw new AdapterError(formatFailureLine(outcome).trim(), true);
  const contents = { file: engine.bytesOf(testSession.initialFile), board: texts.boardText, program: texts.programText };
  const session = new DebugSession(engine, contents);
  const lines = createReplayLines(testSession);
  if (lines !== "") await session.debugger.session.serve(lines, async () => true);
  return { session, result: outcome.failure ? formatFailureLine(outcome).trim().slice(2) : say.testHasPassed(name) };
}
