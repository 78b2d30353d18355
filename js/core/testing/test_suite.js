// Parses and runs the tests of a program, and computes their coverage and profile. The page's worker and the commands `mcs4 test`,
// `mcs4 cover` and `mcs4 profile` use this module.
//
//     const report = await runTests(engine, { boardText, programText, testText }, async (done, total) => true);

import { CancelledError } from "../bench/bench_errors.js";
import { ExecutionRecorder } from "./recorders.js";
import { computeCoverage } from "./coverage.js";
import { prepareTests } from "./test_preparation.js";
import { computeProfile } from "./profile.js";
import { TestRun } from "./test_run.js";
import { readSources } from "./test_text.js";

/**
 * @typedef {import("../engine/engine_host.js").EngineHost} Engine
 * @typedef {import("./coverage.js").Coverage} Coverage
 * @typedef {import("./test_preparation.js").ProjectTextError} ProjectTextError
 * @typedef {import("./profile.js").Profile} Profile
 * @typedef {import("./test_run.js").Outcome} Outcome
 * @typedef {import("./test_text.js").Action} Action
 * @typedef {import("./test_text.js").Source} Source
 * @typedef {import("./test_text.js").Test} Test
 *
 * The texts of a board and a program, with one unnamed test text, or with several named test texts.
 * @typedef {{ boardText: string, programText: string, testText?: string, sources?: Source[] }} TestedTexts
 *
 * The options of a test run:
 * - `RecorderClass`: the class of the recorder. A subclass of ExecutionRecorder records less, so the profile or the coverage can be empty;
 * - `handleOutcome`: called with each outcome when its test ends;
 * - `handleTestEnd`: called at the end of each test, with its session;
 * - `selectedTest`: the test to run, after the tests that save its start state. Without this option, all tests run.
 * @typedef {{ RecorderClass?: typeof ExecutionRecorder, handleOutcome?: (outcome: Outcome, number: number, total: number) => void,
 *   handleTestEnd?: (session: import("./test_session.js").TestSession) => void,
 *   selectedTest?: { name: string, source: string } | null }} Options
 *
 * The results of the tests. If the texts have errors (`errors`), no test runs, and `coverage` and `profile` are null.
 * @typedef {{ errors: ProjectTextError[], outcomes: Outcome[], coverage: Coverage | null, profile: Profile | null }} Report
 */

/** The minimum time between two calls of `shouldContinue`, in milliseconds. */
const YIELD_INTERVAL_MS = 40;

/**
 * Parses the texts of a board, a program and its tests. Returns the prepared session and the tests, or the errors.
 * @param {Engine} engine
 * @param {TestedTexts} texts
 */
export function parseTestedTexts(engine, texts) {
  const { prepared, errors } = prepareTests(engine, texts);
  if (!prepared) return { prepared, errors, tests: [] };
  const { testText = "", sources = [{ name: "", text: testText }] } = texts;
  const parsedTests = readSources(sources, prepared.names);
  /** @type {ProjectTextError[]} */
  const testErrors = parsedTests.errors.map((error) => ({ text: "tests", number: 0, ...error }));
  return { prepared: testErrors.length > 0 ? null : prepared, errors: testErrors, tests: parsedTests.tests };
}

/**
 * Returns whether any of the steps has a wanted action. Also searches the steps inside repetitions and shared steps.
 * @param {import("./test_text.js").Step[]} steps
 * @param {(action: Action) => boolean} isWanted
 * @returns {boolean}
 */
function hasStep(steps, isWanted) {
  return steps.some(({ action }) => ("steps" in action ? hasStep(action.steps, isWanted) : isWanted(action)));
}

/**
 * Returns the test that saves the start state of another test; undefined if that test starts at power-on.
 * @param {Test[]} tests
 * @param {Test} test
 */
function findSavingTest(tests, { textNumber, from }) {
  return tests.find((candidate) => candidate.textNumber === textNumber
    && candidate.steps.some(({ action }) => action.kind === "save" && action.state === from));
}

/**
 * Returns the wanted tests, each preceded by the tests that must run first to save its start state.
 * @param {Test[]} tests
 * @param {(test: Test) => boolean} isWanted
 */
function selectWithPrerequisites(tests, isWanted) {
  /** @type {Set<Test>} */
  const selectedTests = new Set();
  for (let test = tests.find(isWanted); test && !selectedTests.has(test); test = findSavingTest(tests, test)) selectedTests.add(test);
  return tests.filter((test) => selectedTests.has(test));
}

/** @type {(action: Action) => boolean} returns whether the condition of a step depends on the printout */
const needsPrintout = (action) => "condition" in action && action.condition.needs.includes("printed");

/** @type {(action: Action) => boolean} returns whether a step changes ROM */
const changesRom = (action) => action.kind === "set" && action.changesRom;

/**
 * Runs all tests of the texts, or one test and its prerequisites. Throws `CancelledError` if `shouldContinue` resolves to false.
 * @param {Engine} engine
 * @param {TestedTexts} texts
 * @param {(doneCount: number, total: number) => Promise<boolean>} shouldContinue called with the number of completed tests; resolves to
 *   true to continue
 * @param {Options} [options]
 * @returns {Promise<Report>}
 */
export async function runTests(engine, texts, shouldContinue, options = {}) {
  const { RecorderClass = ExecutionRecorder, handleOutcome = () => {}, handleTestEnd = () => {}, selectedTest = null } = options;
  const { prepared, errors, tests: allTests } = parseTestedTexts(engine, texts);
  const { sources = [] } = texts;
  const isSelected = selectedTest
    && ((/** @type {Test} */ { name, textNumber }) => name === selectedTest.name && sources[textNumber - 1].name === selectedTest.source);
  const tests = isSelected ? selectWithPrerequisites(allTests, isSelected) : allTests;
  if (!prepared) return { errors, outcomes: [], coverage: null, profile: null };
  const recorder = new RecorderClass(prepared.codes);
  /** @type {Outcome[]} */
  const outcomes = [];
  let lastYield = performance.now();
  const yieldToMessages = async () => {
    if (performance.now() - lastYield < YIELD_INTERVAL_MS) return;
    if (!(await shouldContinue(outcomes.length, tests.length))) throw new CancelledError();
    lastYield = performance.now();
  };
  const printer = tests.some(({ steps }) => hasStep(steps, needsPrintout)) ? prepared.names.face.printer : null;
  const run = new TestRun(engine, prepared, recorder, yieldToMessages, printer);
  run.onEnd = handleTestEnd;
  run.changesRom = tests.some(({ steps }) => hasStep(steps, changesRom));
  if (tests.length > 1) engine.prepareForRuns(prepared.file);
  for (const test of tests) {
    const savingTest = findSavingTest(tests, test);
    outcomes.push(await run.run(test, savingTest ? savingTest.name : ""));
    handleOutcome(outcomes[outcomes.length - 1], outcomes.length, tests.length);
    await yieldToMessages();
  }
  recorder.codes = prepared.codes;
  const { map } = prepared.names;
  return { errors: [], outcomes, coverage: computeCoverage(recorder, map), profile: computeProfile(recorder, map) };
}
