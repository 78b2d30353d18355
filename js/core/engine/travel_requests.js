// Requests that run the session to a goal, move the session back or forward in time, or search its past.

import { readBoard } from "../bench/answers.js";
import { maxNearDistance } from "../debug/debugger.js";
import { measureHeat } from "./heat_map.js";

/**
 * @typedef {import("./open_bench.js").OpenBench} OpenBench
 * @typedef {import("../bench/protocol.js").GoalReply} GoalReply
 * @typedef {import("../debug/debugger.js").BackResult} BackResult
 * @typedef {import("./past_search.js").BackGoal} BackGoal
 * @typedef {import("../bench/protocol.js").TravelResult} TravelResult
 * @typedef {import("../debug/goals.js").Goal} Goal
 */

export class TravelRequests {
  /** @param {OpenBench} bench */
  constructor(bench) {
    this.bench = bench;
  }

  /**
   * Sets the names that can occur in conditions.
   * @param {{ board: string, program: string, watched?: string[] }} texts
   */
  setNames(texts) {
    this.bench.debugger.names = this.bench.collectNames(texts);
  }

  /**
   * Runs to a goal, or to a breakpoint if the session reaches the breakpoint first. If neither is within `maxCycles` cycles, the session
   * does not change. The debugger then keeps the goal, and the following frames run towards it.
   * @param {Goal} goal
   * @param {number} [maxCycles]
   * @returns {Promise<GoalReply>}
   */
  async runToGoal(goal, maxCycles = maxNearDistance(goal)) {
    const shouldContinue = (/** @type {number} */ done) => this.bench.shouldContinue(done, maxCycles);
    const { searchResult, result, tally } = await this.bench.debugger.runToGoal(goal, maxCycles, shouldContinue);
    if (!result) return { ...this.bench.replyWithoutServing(), searchResult, tally };
    const { snapshot, ...served } = result;
    return { ...served, ...this.bench.takePageState(snapshot, false), searchResult, tally };
  }

  /** Abandons the goal, because the user starts or pauses the machine. */
  dropGoal() {
    this.bench.debugger.beginMove();
  }

  /**
   * Moves the session back in time to a goal. `goForward` undoes this move.
   * @param {BackGoal} goal
   * @returns {Promise<TravelResult>}
   */
  async goBack(goal) {
    const totalCycles = this.bench.session.timeline.cycles;
    let doneCycles = 0;
    const shouldContinue = (newCycles = 0) => this.bench.shouldContinue(doneCycles += newCycles, totalCycles);
    const outcome = await this.bench.debugger.goBack(goal, shouldContinue);
    return createTravelResult(this.bench, "back", outcome);
  }

  /**
   * Undoes the last move back in time.
   * @returns {TravelResult}
   */
  goForward() {
    return createTravelResult(this.bench, "forward", this.bench.debugger.goForward());
  }

  /**
   * Resolves to the last change of a `trace` place in the stored past.
   * @param {string} place a register, RAM nibble, port or other place that conditions can name
   */
  async findLastChange(place) {
    const totalCycles = this.bench.session.timeline.cycles;
    let doneCycles = 0;
    const shouldContinue = (newCycles = 0) => this.bench.shouldContinue(doneCycles += newCycles, totalCycles);
    return this.bench.debugger.findLastChange(place, shouldContinue);
  }

  /**
   * Resolves to the heat map for the last `cycles` cycles.
   * @param {number} cycles
   */
  measureHeat(cycles) {
    const { engine, session } = this.bench;
    const board = readBoard(session.statusQueries.board);
    let doneCycles = 0;
    const shouldContinue = (newCycles = 0) => this.bench.shouldContinue(doneCycles += newCycles, cycles);
    return measureHeat(engine, session.timeline, board, cycles, shouldContinue);
  }
}

/**
 * Returns the result of a move back or forward, with the new state of the session for the page.
 * @param {OpenBench} bench
 * @param {string} word the name of the move in the console
 * @param {BackResult} outcome
 * @returns {TravelResult}
 */
function createTravelResult(bench, word, outcome) {
  const { session } = bench;
  const { isDone, hasChangedBoard } = outcome;
  const entries = isDone ? [{ line: `(${word})`, textLines: 0, answers: [bench.engine.ask(session.file, "").openingAnswer] }] : [];
  const report = bench.takePageState(session.takeSnapshot(), hasChangedBoard);
  return { entries, firstAnswer: "", status: 0, hasChangedRom: isDone, ...outcome, ...report };
}
