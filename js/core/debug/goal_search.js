// Searches for a goal in the future: finds the number of cycles until the machine reaches the goal. The search uses queries, or runs a
// temporary copy of the session, so that the session itself does not change. Afterwards, the session runs for that number of cycles.

import { CancelledError } from "../bench/bench_errors.js";
import { MAX_RUN_CYCLES } from "../engine/key_queue.js";
import { FIRST_PIECE_CYCLES, PieceSize } from "../engine/piece_size.js";
import { ForecastAnswers } from "../engine/forecast_answers.js";
import { MAX_PIECE_CYCLES, endForMissingGoal, createWatcher } from "./goals.js";

/**
 * @typedef {import("../engine/engine_host.js").EngineHost} Engine
 * @typedef {import("../engine/key_queue.js").PlannedLine} PlannedLine
 * @typedef {import("./goals.js").SearchResult} SearchResult
 * @typedef {import("./goals.js").Goal} Goal
 * @typedef {import("./goals.js").Watcher} Watcher
 */

/**
 * Returns the bench lines that run a number of cycles, with the watcher's queries before and after each run.
 * @param {Watcher} watcher
 * @param {number} cycles
 */
function pieceLines(watcher, cycles) {
  let lines = "";
  for (let cyclesLeft = cycles; cyclesLeft > 0; cyclesLeft -= MAX_RUN_CYCLES) {
    const runCycles = Math.min(cyclesLeft, MAX_RUN_CYCLES);
    lines += `${watcher.queriesBefore(runCycles)}run ${runCycles}\n${watcher.queriesAfter}`;
  }
  return lines;
}

/**
 * Searches the answers to run lines for the goal or a stop. Returns null if the runs reach neither.
 * @param {ForecastAnswers} answers
 * @param {Watcher} watcher
 * @returns {SearchResult | null} the result; `cycles` counts from the start of the first run
 */
function searchAnswers(answers, watcher) {
  let doneCycles = 0;
  while (!answers.isEmpty) {
    const result = watcher.readAnswers(answers);
    doneCycles += result.cycles;
    if (result.isReached || result.end !== "end") return { ...result, cycles: doneCycles };
  }
  return null;
}

/**
 * Searches for a goal from the current state. Assumes that no key changes.
 * @param {Engine} engine
 * @param {Uint8Array} file the session file; not changed
 * @param {Goal} goal
 * @param {(done: number) => Promise<boolean>} shouldContinue called after each piece with the number of cycles searched. If it resolves
 *   to false, `searchGoal` throws `CancelledError`
 * @param {number} maxCycles the maximum number of cycles to search
 * @param {() => Uint8Array} [readCodes] returns the contents of ROM
 * @returns {Promise<SearchResult>}
 */
export async function searchGoal(engine, file, goal, shouldContinue, maxCycles, readCodes) {
  const copy = file.slice();
  const watcher = createWatcher(engine, file, goal, readCodes);
  if (!watcher) return { cycles: 0, isReached: false, end: endForMissingGoal(goal) };
  if (watcher.setupLine) engine.serve(copy, watcher.setupLine, copy);
  const pieceSize = new PieceSize(FIRST_PIECE_CYCLES, 1, MAX_PIECE_CYCLES);
  for (let doneCycles = 0; doneCycles < maxCycles;) {
    const cycles = Math.min(pieceSize.size, watcher.maxRun(), maxCycles - doneCycles);
    const result = pieceSize.measure(() => (
      searchAnswers(new ForecastAnswers(engine.serve(copy, pieceLines(watcher, cycles), copy).answers), watcher)));
    if (result) return { ...result, cycles: doneCycles + result.cycles };
    doneCycles += cycles;
    if (!(await shouldContinue(doneCycles))) throw new CancelledError();
  }
  return { cycles: maxCycles, isReached: false, end: "bound" };
}

/**
 * Returns the number of cycles of a `run` line; 0 for a key change.
 * @param {import("../engine/forecast_queries.js").SentLine} sentLine
 */
export function plannedCycles({ line, change }) {
  return change ? 0 : Number(line.slice("run ".length));
}

/**
 * Returns the number of cycles until the next lines reach the goal; -1 if a run stops earlier, or if the lines end without reaching it.
 * @param {Engine} engine
 * @param {Uint8Array} file the session file; not changed
 * @param {PlannedLine[]} plannedLines the next lines
 * @param {Watcher} watcher a watcher that has examined all earlier runs
 */
export function cyclesToGoal(engine, file, plannedLines, watcher) {
  const lines = plannedLines.map((plannedLine) => (
    plannedLine.change ? `${plannedLine.line}\n`
      : `${watcher.queriesBefore(plannedCycles(plannedLine))}${plannedLine.line}\n${watcher.queriesAfter}`));
  const answers = new ForecastAnswers(engine.ask(file, watcher.setupLine + lines.join("")).answers);
  if (watcher.setupLine) answers.take();
  let doneCycles = 0;
  for (const { change } of plannedLines) {
    if (change) {
      answers.take();
      continue;
    }
    const result = watcher.readAnswers(answers);
    doneCycles += result.cycles;
    if (result.isReached) return doneCycles;
    if (result.end !== "end") return -1;
  }
  return -1;
}

/**
 * Returns the planned lines up to a number of cycles. Shortens the last run if necessary.
 * @param {PlannedLine[]} plannedLines
 * @param {number} cycles
 * @returns {PlannedLine[]}
 */
export function truncateLines(plannedLines, cycles) {
  /** @type {PlannedLine[]} */
  const truncatedLines = [];
  let cyclesLeft = cycles;
  for (const plannedLine of plannedLines) {
    const lineCycles = plannedCycles(plannedLine);
    if (cyclesLeft === 0) break;
    truncatedLines.push(lineCycles > cyclesLeft ? { line: `run ${cyclesLeft}`, change: null } : plannedLine);
    cyclesLeft -= Math.min(lineCycles, cyclesLeft);
  }
  return truncatedLines;
}
