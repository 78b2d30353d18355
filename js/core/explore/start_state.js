// Starts a search at a state that a test has saved (`from STATE` in a properties text). Runs the tests that lead to this state once. The
// test for each counterexample then begins with the lines of these tests.

import { parseState, parsePorts } from "../bench/state_line.js";
import { PressedKeys } from "../board/key_place.js";
import { ExecutionRecorder, MAX_CALL_DEPTH } from "../testing/recorders.js";
import { TestRun } from "../testing/test_run.js";
import { expandSteps, readTests } from "../testing/test_text.js";
import * as say from "../../words/explore.js";

/**
 * @typedef {import("../testing/test_preparation.js").PreparedTests} PreparedTests
 * @typedef {import("../testing/test_text.js").Test} Test
 * @typedef {import("./campaign.js").Campaign} Campaign
 * @typedef {import("./search_inputs.js").Input} Input
 * @typedef {import("./subject.js").Subject} Subject
 * @typedef {{ subject: Subject, campaign: Campaign }} SearchSetup
 */

/** Records the calls that have not returned, across consecutive tests. */
class OpenCallRecorder extends ExecutionRecorder {
  begin() {
    this.lastPress.key = "";
  }

  end() {
    // Keeps the open calls, because the next test continues from the saved state.
  }
}

/**
 * Returns whether a test saves a state.
 * @param {Test} test
 * @param {string} state
 */
function savesState({ steps }, state) {
  return steps.some(({ action }) => action.kind === "save" && action.state === state);
}

/**
 * Returns the tests that lead to a saved state, in order. If there are none, `message` is the error message; otherwise it is "".
 * @param {PreparedTests["names"]} names
 * @param {string} testText
 * @param {string} state
 * @returns {{ tests: Test[], message: string }}
 */
export function findLeadingTests(names, testText, state) {
  const { tests, errors } = readTests(testText, names);
  if (testText.trim() === "") return { tests: [], message: say.noTestsMessage(state) };
  if (errors.length > 0) return { tests: [], message: say.testsHaveError(errors[0].line, errors[0].words) };
  const savingTest = tests.find((test) => savesState(test, state));
  if (!savingTest) {
    const stateNames = tests.flatMap(({ steps }) => steps.flatMap(({ action }) => (action.kind === "save" ? [action.state] : [])));
    return { tests: [], message: say.noSuchStateMessage(state, stateNames.join(" ")) };
  }
  const earlierTests = savingTest.from === "" ? [] : findLeadingTests(names, testText, savingTest.from).tests;
  return { tests: [...earlierTests, savingTest], message: "" };
}

/**
 * Removes the end of each test: the lines after the `save` line of the state from which the next test continues.
 * @param {Test[]} tests
 * @param {string} state the name of the state that the last test saves
 * @returns {Test[]}
 */
function cutAtSavedStates(tests, state) {
  return tests.map((test, at) => {
    const wantedState = at + 1 < tests.length ? tests[at + 1].from : state;
    const end = test.steps.findIndex(({ action }) => action.kind === "save" && action.state === wantedState);
    return { ...test, steps: test.steps.slice(0, end + 1) };
  });
}

/**
 * Returns the lines of tests, except the lines that save a state or continue from a state.
 * @param {Test[]} tests
 */
function formatLines(tests) {
  const lines = tests.flatMap((test) => expandSteps(test.steps)).filter(({ action }) => action.kind !== "from" && action.kind !== "save");
  return lines.map(({ text }) => `  ${text}`);
}

/**
 * Returns the minimum and the maximum number of open calls at the end of some tests. If one of the tests resets the machine, the number is
 * unknown, so the result is the full range.
 * @param {Test[]} tests
 * @param {OpenCallRecorder} recorder
 */
function countOpenCalls(tests, recorder) {
  const isReset = tests.some(({ steps }) => expandSteps(steps).some(({ action }) => action.kind === "reset"));
  const { length } = recorder.openCalls;
  return isReset ? { min: 0, max: MAX_CALL_DEPTH } : { min: length, max: length };
}

/**
 * Returns an input with its current position (down or up) in a session.
 * @param {Input} input
 * @param {string} state the answer to `state`
 * @returns {Input}
 */
function updateInput(input, state) {
  const { test, ports } = parseState(state);
  return { ...input, isDown: new PressedKeys(parsePorts(ports).keys).has(input.key, test) };
}

/**
 * Resolves to the campaign and its subject at the start state. If the tests do not reach this state, `message` is the error message.
 * @param {SearchSetup} searchSetup
 * @param {PreparedTests} prepared
 * @param {string} testText
 * @returns {Promise<{ searchSetup: SearchSetup, message: string }>}
 */
export async function startCampaign(searchSetup, prepared, testText) {
  const { subject, campaign } = searchSetup;
  if (!campaign.from) return { searchSetup, message: "" };
  const { state } = campaign.from;
  const { tests, message } = findLeadingTests(prepared.names, testText, state);
  if (message) return { searchSetup, message };
  const recorder = new OpenCallRecorder(prepared.codes);
  const run = new TestRun(subject.engine, prepared, recorder, async () => {});
  let failureMessage = "";
  const leadingTests = cutAtSavedStates(tests, state);
  for (const test of leadingTests) {
    const { failure } = await run.run(test, "");
    if (failure && failureMessage === "") failureMessage = say.testFails(failure.line, failure.text, failure.words);
  }
  const savedState = run.states.get(state);
  if (!savedState) return { searchSetup, message: failureMessage };
  const { file } = savedState;
  const [stateAnswer] = subject.engine.ask(file, "state\n").answers;
  const inputs = campaign.inputs.map((input) => updateInput(input, stateAnswer));
  const start = { inputs, leadingLines: formatLines(leadingTests), calls: countOpenCalls(leadingTests, recorder) };
  return { searchSetup: { subject: { ...subject, file }, campaign: { ...campaign, ...start } }, message: "" };
}
