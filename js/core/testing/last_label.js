// Finds the last label that a test reached, and when the test reached it. To do so, repeats the whole test in pieces, and counts how often
// each instruction ran in each piece.

import { MAX_RUN_CYCLES } from "../engine/key_queue.js";
import { ForecastAnswers, parseTraceLine } from "../engine/forecast_answers.js";
import * as say from "../../words/testing.js";

/**
 * @typedef {import("../conditions/condition_language.js").Condition} Condition
 * @typedef {import("../machine/source_map.js").SourceMap} SourceMap
 * @typedef {import("./test_session.js").TestAction} TestAction
 * @typedef {import("./test_session.js").TestSession} TestSession
 *
 * An executed instruction: its address, and the number of cycles from the start of the test to the instruction.
 * @typedef {{ address: number, cycles: number }} PassedInstruction
 */

/**
 * Yields the actions of a test. Splits each run into runs of at most MAX_RUN_CYCLES cycles.
 * @param {TestAction[]} actions
 * @returns {Generator<TestAction>}
 */
function* splitRuns(actions) {
  for (const { line, cycles } of actions) {
    if (line !== "run") yield { line, cycles: 0 };
    for (let remaining = cycles; remaining > 0; remaining -= MAX_RUN_CYCLES) {
      yield { line: "run", cycles: Math.min(remaining, MAX_RUN_CYCLES) };
    }
  }
}

/**
 * Returns the last executed instruction of the test at any of `addresses`; null if the test executed no such instruction.
 * @param {TestSession} session
 * @param {Set<number>} addresses
 * @returns {PassedInstruction | null}
 */
export function findLastPassedInstruction({ engine, initialFile, actions }, addresses) {
  const file = initialFile.slice();
  const stateBefore = initialFile.slice();
  let [runCycles, elapsed, elapsedBefore] = [0, 0, 0];
  for (const { line, cycles } of splitRuns(actions)) {
    if (cycles === 0) {
      engine.serve(file, `${line}\n`, file);
      continue;
    }
    const counts = new ForecastAnswers(engine.ask(file, `count ${cycles}\n`).answers).takeCounts();
    if (counts.some(({ address }) => addresses.has(address))) {
      stateBefore.set(file);
      [runCycles, elapsedBefore] = [cycles, elapsed];
    }
    engine.serve(file, `run ${cycles}\n`, file);
    elapsed += cycles;
  }
  if (runCycles === 0) return null;
  const { lines } = new ForecastAnswers(engine.ask(stateBefore, `trace ${runCycles}\n`).answers).takeTrace();
  const last = [...lines].reverse().map(parseTraceLine).find(({ address }) => addresses.has(address));
  return last ? { address: last.address, cycles: elapsedBefore + last.cycles } : null;
}

/**
 * Describes the last label that the session reached, for the error message if a condition did not become true in time. For a condition
 * that is an address, the text also says when the session last reached this address.
 * @param {TestSession} session
 * @param {SourceMap} map
 * @param {Condition} condition
 */
export function describeLastLabel(session, map, { address, text }) {
  const labels = [...map.names.values()].filter(({ isLabel }) => isLabel);
  const passedLabel = findLastPassedInstruction(session, new Set(labels.map(({ value }) => value)));
  const formatAge = (/** @type {PassedInstruction} */ { cycles }) => say.cyclesAgo(session.elapsed - cycles);
  const namedLabel = passedLabel && labels.find(({ value }) => value === passedLabel.address);
  const labelText = passedLabel && namedLabel ? say.lastLabel(namedLabel.name, formatAge(passedLabel)) : "";
  if (address < 0) return labelText;
  const passedAddress = findLastPassedInstruction(session, new Set([address]));
  const arrivalText = passedAddress ? say.lastPassedAgo(formatAge(passedAddress)) : say.NOT_PASSED;
  return say.lastLabelAndCondition(labelText, text.startsWith("@") ? text : `pc ${address}`, arrivalText);
}
