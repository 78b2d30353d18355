// Lists the last instructions that a test executed, one trace line per instruction. Repeats the last cycles from a copy of an earlier
// state.

import { formatRunLines } from "../engine/key_queue.js";
import { InstructionTexts } from "../trace/instruction_texts.js";
import { TraceLines } from "../trace/trace_lines.js";
import { LISTABLE_CYCLES } from "./test_session.js";
import * as say from "../../words/testing.js";

/**
 * @typedef {import("../bench/answers.js").Board} Board
 * @typedef {import("../machine/source_map.js").SourceMap} SourceMap
 * @typedef {import("./test_session.js").TestAction} TestAction
 * @typedef {import("./test_session.js").TestSession} TestSession
 */

/** The maximum number of listed instructions, not counting the next instruction. */
const MAX_INSTRUCTIONS = 12;

/**
 * Returns where the list starts: the index of the first listed action (`firstAction`), and the number of cycles at the start of this action
 * that the list omits (`skippedCycles`).
 * @param {TestAction[]} actions
 */
function findListedPart(actions) {
  let cyclesLeft = LISTABLE_CYCLES;
  let listedPart = { firstAction: actions.length, skippedCycles: 0 };
  for (let index = actions.length - 1; index >= 0 && cyclesLeft > 0; index--) {
    const { cycles } = actions[index];
    listedPart = { firstAction: index, skippedCycles: Math.max(0, cycles - cyclesLeft) };
    cyclesLeft -= cycles - listedPart.skippedCycles;
  }
  return listedPart;
}

/**
 * Returns trace lines for the last instructions and commands of a test, followed by a line for the next instruction. Returns an empty list
 * if the test has executed nothing.
 * @param {TestSession} session
 * @param {{ board: Board, map: SourceMap }} names
 * @returns {string[]}
 */
export function traceLastInstructions(session, { board, map }) {
  const { engine, storedState } = session;
  const { laterActions } = storedState;
  if (laterActions.length === 0) return [];
  const { firstAction, skippedCycles } = findListedPart(laterActions);
  const file = storedState.file.slice();
  const formatActionLines = (/** @type {TestAction} */ { line, cycles }) => (line === "run" ? formatRunLines(cycles) : `${line}\n`);
  const skippedRunLines = skippedCycles > 0 ? formatRunLines(skippedCycles) : "";
  engine.serve(file, laterActions.slice(0, firstAction).map(formatActionLines).join("") + skippedRunLines, file);
  let elapsed = storedState.elapsed + laterActions.slice(0, firstAction).reduce((sum, { cycles }) => sum + cycles, skippedCycles);
  const trace = new TraceLines(engine, board, new InstructionTexts({ map, source: null }));
  const lines = trace.traceSecondCycle(file, elapsed);
  laterActions.slice(firstAction).forEach(({ line, cycles }, index) => {
    const actionCycles = index === 0 ? cycles - skippedCycles : cycles;
    if (line === "run") lines.push(...trace.traceRun(file, actionCycles, elapsed));
    else lines.push(`          ${line}`);
    engine.serve(file, line === "run" ? formatRunLines(actionCycles) : `${line}\n`, file);
    elapsed += actionCycles;
  });
  const lastLines = [...lines.slice(-MAX_INSTRUCTIONS), say.nextInstructionLine(trace.formatNext(session.file, elapsed))];
  return lastLines.flatMap((traceLine) => traceLine.split("\n"));
}
