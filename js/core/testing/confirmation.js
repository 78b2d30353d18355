// Checks a counterexample by running its test.

import { runTests } from "./test_suite.js";

/**
 * Runs a test on a board and a program. Resolves to true if the result confirms the counterexample: the test of a goal must pass, and the
 * test of any other property must fail.
 * @param {import("../engine/engine_host.js").EngineHost} engine
 * @param {import("./test_preparation.js").Texts} texts
 * @param {string} test the test text
 * @param {boolean} isGoal true if the property is a goal (`reach`)
 * @param {() => Promise<void>} yieldToMessages resolves after the event loop has handled waiting messages
 */
export async function confirmsCounterexample(engine, { boardText, programText }, test, isGoal, yieldToMessages) {
  const { errors, outcomes } = await runTests(engine, { boardText, programText, testText: test }, async () => {
    await yieldToMessages();
    return true;
  });
  return errors.length === 0 && outcomes.every(({ failure }) => (failure === null) === isGoal);
}
