// Plans the execution of typed lines, so that a `run` in these lines also ends at soft breakpoints. A copy of the session executes the
// lines first. If a run reaches a soft breakpoint that stops the machine, the plan shortens the run to end at this breakpoint.

import { readRun } from "../bench/answers.js";
import { CancelledError } from "../bench/bench_errors.js";
import { findInputEnd, readInputs } from "../bench/inputs.js";
import { parseNumber } from "../bench/numbers.js";
import { MAX_RUN_CYCLES } from "../engine/key_queue.js";

/**
 * @typedef {import("../bench/inputs.js").Input} Input
 * @typedef {import("../engine/engine_host.js").EngineHost} Engine
 * @typedef {import("./data_watches.js").SoftStopFinder} SoftStopFinder
 * @typedef {import("./arrivals.js").BreakpointEvents} BreakpointEvents
 *
 * A plan for typed lines. `lines`: the lines to execute. `runs`: the breakpoint events and the preceding cycles of each run. If a
 * breakpoint ends the last line early, `id` is the id of the breakpoint, `cutLine` is the line as typed, and `reason` and `change` have the
 * same meaning as in `BreakpointEvents`. Otherwise `id` is 0, and `cutLine`, `reason` and `change` are "".
 * @typedef {{ lines: string, runs: { events: BreakpointEvents, cyclesBefore: number }[], id: number, cutLine: string, reason: string,
 *   change: string }} TypedPlan
 */

/**
 * Returns the number of cycles in a `run` line; 0 for any other line, and for a run that the bench rejects.
 * @param {Input | undefined} input
 */
function runCycles(input) {
  const cycles = input && input.kind === "run" && input.words.length === 2 ? parseNumber(input.words[1]) : 0;
  return cycles >= 1 && cycles <= MAX_RUN_CYCLES ? cycles : 0;
}

/**
 * Plans typed lines. Throws CancelledError if `shouldContinue` resolves to false.
 * @param {Engine} engine
 * @param {Uint8Array} file the session file; not changed
 * @param {SoftStopFinder} stopFinder finds the stops of the machine, and counts hits and changes
 * @param {string} lines
 * @param {(done: number) => Promise<boolean>} shouldContinue called with the number of planned characters; resolves to true to continue
 * @returns {Promise<TypedPlan>}
 */
export async function planTypedLines(engine, file, stopFinder, lines, shouldContinue) {
  /** @type {TypedPlan} */
  const plan = { lines: "", runs: [], id: 0, cutLine: "", reason: "", change: "" };
  if (stopFinder.isEmpty || !/\brun\b/.test(lines)) return { ...plan, lines };
  const copy = file.slice();
  let [pendingLines, doneCycles] = ["", 0];
  for (let offset = 0; offset < lines.length;) {
    const end = findInputEnd(lines, offset, 1);
    const [input] = readInputs(lines.slice(offset, end));
    const cycles = runCycles(input);
    let servedLines = lines.slice(offset, end);
    pendingLines += servedLines;
    [plan.id, plan.cutLine, offset] = [0, "", end];
    if (cycles > 0) {
      const linesBefore = pendingLines.slice(0, -servedLines.length);
      if (linesBefore) engine.serve(copy, linesBefore, copy);
      const events = stopFinder.searchLines(engine, copy, [{ line: `run ${cycles}`, change: null }]);
      const { id, reason, change } = events;
      if (events.cycles >= 0) [servedLines, plan.cutLine] = [`run ${events.cycles}\n`, input.line.trim()];
      if (events.cycles >= 0) Object.assign(plan, { id, reason, change });
      stopFinder.countEvents(events);
      plan.runs.push({ events, cyclesBefore: doneCycles });
      const run = readRun(engine.serve(copy, servedLines, copy).answers[0]);
      doneCycles += run ? run.cycles : 0;
      pendingLines = "";
      if (!(await shouldContinue(offset))) throw new CancelledError();
    }
    plan.lines += servedLines;
  }
  return plan;
}
