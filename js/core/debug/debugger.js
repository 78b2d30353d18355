// The debugger of a session. It handles breakpoints, stop reasons, values, and moves: forward to a goal, and back in time. It runs in the
// page's worker and in Node. All its reports are based on answers of the bench. Apart from typed lines, it adds only runs and breakpoint
// changes to the session.
//
//     const session = new WorkerSession(engine, file);               (debug_session.js does this, and also stores the source)
//     const debug = new Debugger(session);
//     debug.setBreakpoints([{ id: 1, address: 0x14, condition: "r9 = 9", from: 1, note: "", hits: 0 }], names);
//     const { searchResult } = await debug.runToGoal({ kind: "over" }, MAX_NEAR_CYCLES, shouldContinue);
//     while (debug.isMoving) { const { stop } = debug.advance(FRAME_CYCLES); if (stop) .. }        for a goal that is not near
//     debug.values(["r4", "lamps"]); await debug.goBack({ kind: "instruction" }, shouldContinue); debug.goForward();
//
// A move has a goal (goals.js). The debugger runs to a near goal at once. For any other goal, `isMoving` is true until `advance` reports a
// stop or the caller calls `beginMove` or `endMove`. The bench has the hard breakpoints, which stop the machine at every arrival. Soft
// breakpoints have a condition, a hit count or a note. The debugger finds their stops in advance (arrivals.js), so the session file does
// not contain soft breakpoints.

import { readBoard, readRun } from "../bench/answers.js";
import { hex } from "../bench/numbers.js";
import { parsePlace } from "../conditions/places.js";
import { Probes } from "../conditions/probes.js";
import { EMPTY_SEARCH_RESULT, findPastGoal } from "../engine/past_search.js";
import { formatRunLines } from "../engine/key_queue.js";
import { SEARCH_PIECE_CYCLES } from "../engine/piece_size.js";
import { ForecastAnswers } from "../engine/forecast_answers.js";
import { CYCLES_PER_SECOND } from "../time/mcs4_time.js";
import { cyclesToGoal, searchGoal, truncateLines } from "./goal_search.js";
import { Arrivals, MAX_NOTES, createEmptyEvents } from "./arrivals.js";
import { compileSearchCondition } from "./condition_search.js";
import { DataWatches, SoftStopFinder, compileWatches } from "./data_watches.js";
import { parseCounter, createWatcher } from "./goals.js";
import { findLastArrival, findLastCall } from "./last_arrival.js";
import { isSoft, compileBreakpoint } from "./soft_breakpoints.js";
import { planTypedLines } from "./typed_lines.js";
import { CommonMistakes } from "./common_mistakes.js";

/**
 * @typedef {import("./arrivals.js").LoggedNote} LoggedNote
 * @typedef {import("./arrivals.js").BreakpointEvents} BreakpointEvents
 * @typedef {import("./arrivals.js").SoftBreakpoint} SoftBreakpoint
 * @typedef {import("./data_watches.js").RequestedWatch} RequestedWatch
 * @typedef {import("../conditions/condition_language.js").Names} Names
 * @typedef {import("./goals.js").SearchResult} SearchResult
 * @typedef {import("./goals.js").Goal} Goal
 * @typedef {import("./goals.js").Watcher} Watcher
 * @typedef {import("./soft_breakpoints.js").LocatedBreakpoint} LocatedBreakpoint
 * @typedef {import("./common_mistakes.js").CommonMistake} CommonMistake
 * @typedef {import("../engine/past_search.js").BackSearchResult} BackSearchResult
 * @typedef {import("../engine/past_search.js").BackGoal} BackGoal
 * @typedef {import("../engine/timeline.js").SessionAtMoment} SessionAtMoment
 * @typedef {import("../engine/worker_session.js").Frame} Frame
 * @typedef {import("../engine/worker_session.js").LinesResult} LinesResult
 * @typedef {import("../engine/worker_session.js").WorkerSession} WorkerSession
 *
 * A callback that the debugger calls after each piece of a run or search. It resolves to true to continue, or to false to stop. `done` is
 * the number of cycles searched or run so far. `tally` contains the breakpoint events of the last piece of a run.
 * @typedef {(done: number, tally?: Tally) => Promise<boolean>} ShouldContinue
 *
 * A stop. The values of `reason` are:
 * - "goal" for the goal of a move;
 * - "break", "watch" or "code", the bench's reasons for the end of a run;
 * - an error answer of the bench;
 * - "mistake" for a common mistake;
 * - "recorded" for the end of a recording.
 *
 * `id`: the id of the breakpoint or data watch, 0 for none. `change`: a description of the watched change. `cycles`: the number of cycles
 * since the start of the move or run. `endsAtReturn`: true if the goal was reached by a return from a subroutine.
 * @typedef {{ reason: string, id: number, cycles: number, endsAtReturn: boolean, change?: string }} Stop
 *
 * The breakpoint events since the last report. `hits`: pairs of a breakpoint id and its number of new hits. `notes`: the last logged notes.
 * `noteCount`: the number of all logged notes, which can exceed the length of `notes`. `mistakes`: the common mistakes
 * (common_mistakes.js).
 * @typedef {{ hits: [number, number][], notes: LoggedNote[], noteCount: number, mistakes: CommonMistake[] }} Tally
 *
 * The result of typed lines. If a breakpoint ended the last line early, `id` is the id of the breakpoint and `cutLine` is the line as
 * typed. Otherwise `id` is 0 and `cutLine` is "".
 * @typedef {{ id: number, reason: string, change: string, cutLine: string, cycles: number, tally: Tally }} TypedResult
 * @typedef {Frame & { stop: Stop | null, tally: Tally }} DebugFrame
 * @typedef {{ searchResult: SearchResult & { id: number, endsAtReturn: boolean, change?: string },
 *   result: (LinesResult & { snapshot: string[] }) | null, tally: Tally }} RunResult the result of a move; `result` is null if no line was
 *   executed
 *
 * The result of a move back or forward. `isDone` is false if the goal was not found, or if there is no move to undo. `hasChangedBoard` is
 * true if the board has changed. `cycles` is the distance of the move.
 * @typedef {Omit<BackSearchResult, "moment" | "sessionAtMoment"> & { isDone: boolean, hasChangedBoard: boolean,
 *   cycles: number }} BackResult
 *
 * The last change of a place: the number of cycles since the change, and the address of the instruction that made it (-1 for a typed line).
 * @typedef {Omit<BackSearchResult, "moment" | "sessionAtMoment"> & { isFound: boolean, cycles: number, address: number }} LastChange
 */

/** The maximum distance of a near goal in cycles: one second of a real 4004. */
export const MAX_NEAR_CYCLES = CYCLES_PER_SECOND;
/** The maximum distances of other near goals, in cycles: for a change or a condition, and for a number of instructions. */
const MAX_NEAR_CYCLES_FOR_CHANGE = 10000000;
const MAX_NEAR_CYCLES_FOR_COUNT = 100000000;

/** @type {Tally} a tally without any event */
export const NO_TALLY = { hits: [], notes: [], noteCount: 0, mistakes: [] };

/**
 * Joins the events of two tallies. Keeps at most the last MAX_NOTES notes.
 * @param {Tally} earlier
 * @param {Tally} later
 * @returns {Tally}
 */
export function joinTallies(earlier, later) {
  return {
    hits: [...earlier.hits, ...later.hits],
    notes: [...earlier.notes, ...later.notes].slice(-MAX_NOTES),
    noteCount: earlier.noteCount + later.noteCount,
    mistakes: [...earlier.mistakes, ...later.mistakes],
  };
}

/**
 * Returns the maximum distance of a near goal, in cycles.
 * @param {Goal} goal
 */
export function maxNearDistance({ kind }) {
  if (kind === "change" || kind === "when") return MAX_NEAR_CYCLES_FOR_CHANGE;
  return kind === "count" ? MAX_NEAR_CYCLES_FOR_COUNT : MAX_NEAR_CYCLES;
}

/** The debugger of a session. */
export class Debugger {
  /** @param {WorkerSession} session */
  constructor(session) {
    this.session = session;
    this.watches = new DataWatches([]);
    this.stopFinder = this.createStopFinder([]);
    this.commonMistakes = new CommonMistakes(session);
    /** @type {import("../engine/key_queue.js").PlannedLine[] | null} lines that have run but have not been checked for mistakes */
    this.uncheckedLines = null;
    /** @type {CommonMistake[]} mistakes that were found after their lines had run, and are not yet reported */
    this.lateMistakes = [];
    /** @type {Map<number, number> | null} the ids of the hard breakpoints, by address; null before breakpoints are set */
    this.hardBreakpoints = null;
    /** @type {import("../conditions/condition_language.js").Names | null} the names for conditions; null before they are set */
    this.names = null;
    /** @type {Watcher | null} the watcher that detects the goal of the current move */
    this.watcher = null;
    /** The cycle count at the start of the move or run. */
    this.startTotal = session.count.total;
  }

  /** True during a move that has not reached its goal. */
  get isMoving() {
    return this.watcher !== null;
  }

  // --- Breakpoints ---

  /**
   * Sets the breakpoints, at most one per address. Returns the bench lines that the caller must send to set the hard breakpoints. Also
   * returns the ids and error messages of breakpoints that cannot be compiled. Such a breakpoint stops the machine at every arrival.
   * @param {LocatedBreakpoint[]} breakpoints the enabled breakpoints
   * @param {Names} names
   * @returns {{ lines: string, errors: [number, string][] }}
   */
  setBreakpoints(breakpoints, names) {
    /** @type {[number, string][]} */
    const errors = [];
    const softBreakpoints = breakpoints.filter(isSoft).flatMap((breakpoint) => {
      const { softBreakpoint, error } = compileBreakpoint(breakpoint, names);
      if (error) errors.push([breakpoint.id, error]);
      return softBreakpoint;
    });
    this.names = names;
    this.stopFinder = this.createStopFinder(softBreakpoints);
    this.hardBreakpoints = new Map(breakpoints.filter((breakpoint) => !isSoft(breakpoint)).map(({ id, address }) => [address, id]));
    return { lines: this.hardBreakpointLines(), errors };
  }

  /**
   * Returns an object that finds the stops at soft breakpoints and data watches.
   * @param {SoftBreakpoint[]} breakpoints
   */
  createStopFinder(breakpoints) {
    return new SoftStopFinder(new Arrivals(breakpoints), this.watches, () => this.session.romBytes);
  }

  /**
   * Replaces the data watches. The RAM characters that the bench watches do not change. Returns the error messages of watches that cannot
   * be compiled, by watch id.
   * @param {RequestedWatch[]} requestedWatches
   * @param {Names} names
   */
  setWatches(requestedWatches, names) {
    const changeCounts = new Map(this.watches.watches.map(({ id, changeCount }) => [id, changeCount]));
    const { watches, errors } = compileWatches(requestedWatches, names);
    this.watches = new DataWatches(watches.map((watch) => ({ ...watch, changeCount: changeCounts.get(watch.id) || 0 })));
    this.stopFinder = new SoftStopFinder(this.stopFinder.arrivals, this.watches, () => this.session.romBytes);
    return errors;
  }

  /** Returns the bench lines that set the hard breakpoints and delete all other breakpoints; "" before `setBreakpoints`. */
  hardBreakpointLines() {
    const { hardBreakpoints } = this;
    if (!hardBreakpoints) return "";
    const benchAddresses = new Set(this.session.breakpointAddresses);
    const removedAddresses = [...benchAddresses].filter((address) => !hardBreakpoints.has(address));
    const removalLines = removedAddresses.map((address) => `unbreak 0x${hex(address, 3)}\n`);
    const addedAddresses = [...hardBreakpoints.keys()].filter((address) => !benchAddresses.has(address));
    const additionLines = addedAddresses.map((address) => `break 0x${hex(address, 3)}\n`);
    return [...removalLines, ...additionLines].join("");
  }

  // --- Running ---

  /** Starts a move or run: abandons an earlier goal, and resets the cycle count of the move. */
  beginMove() {
    this.watcher = null;
    this.startTotal = this.session.count.total;
    this.lateMistakes = [];
    this.commonMistakes.beginRun();
  }

  /**
   * Runs for a number of cycles, including the queued key changes, up to the goal of the move or an earlier stop.
   * @param {number} cycles
   * @param {boolean} [isUrgent] true if the caller must show the lamps soon; `checkLastLines` then searches for mistakes later, if
   *   mistakes do not stop the machine
   * @returns {DebugFrame}
   */
  advance(cycles, isUrgent = false) {
    const { session } = this;
    const { engine, file } = session;
    let plannedLines = session.queue.plan(cycles);
    const cyclesBeforeGoal = this.watcher ? cyclesToGoal(engine, file, plannedLines, this.watcher) : -1;
    if (cyclesBeforeGoal >= 0) plannedLines = truncateLines(plannedLines, cyclesBeforeGoal);
    const events = this.stopFinder.searchLines(engine, file, plannedLines);
    if (events.cycles >= 0) plannedLines = truncateLines(plannedLines, events.cycles);
    const checksLater = isUrgent && this.commonMistakes.stoppingKinds.size === 0 && session.recording === null;
    const foundMistakes = checksLater ? { mistakes: [], stop: -1 } : this.commonMistakes.searchLines(plannedLines);
    if (foundMistakes.stop >= 0) plannedLines = truncateLines(plannedLines, foundMistakes.stop);
    const countBefore = session.count.total;
    const frame = session.runPlannedLines(plannedLines);
    this.stopFinder.countEvents(events);
    this.uncheckedLines = checksLater ? plannedLines : null;
    const stop = this.findMistakeOrRecordingStop(frame, foundMistakes.stop) || this.findStop(frame, events, cyclesBeforeGoal);
    if (stop) this.endMove();
    const tally = { ...this.createTally(events, stop, countBefore), mistakes: [...this.takeLateMistakes(), ...foundMistakes.mistakes] };
    return { ...frame, stop, tally };
  }

  /**
   * Checks the last lines for mistakes, if `advance` has not checked them. `session.nextFile` still contains the session file as it was
   * before these lines.
   */
  checkLastLines() {
    const { uncheckedLines } = this;
    this.uncheckedLines = null;
    if (uncheckedLines) this.lateMistakes.push(...this.commonMistakes.searchLines(uncheckedLines, this.session.nextFile).mistakes);
  }

  /** Removes and returns the mistakes that `checkLastLines` found. */
  takeLateMistakes() {
    return this.lateMistakes.splice(0);
  }

  /**
   * Returns the stop at a common mistake or at the end of a recording; null if there is neither.
   * @param {Frame} frame
   * @param {number} cyclesToMistake the cycles before the mistake, -1 for none
   */
  findMistakeOrRecordingStop(frame, cyclesToMistake) {
    if (cyclesToMistake >= 0 && frame.cycles === cyclesToMistake) return this.createStop("mistake");
    const { recorder } = this.session;
    if (!recorder || !recorder.mustStopMachine || frame.end) return null;
    recorder.mustStopMachine = false;
    return this.createStop("recorded");
  }

  /**
   * Returns a stop that was not caused by a breakpoint.
   * @param {string} reason
   * @returns {Stop}
   */
  createStop(reason) {
    return { reason, id: 0, cycles: this.session.count.total - this.startTotal, endsAtReturn: false };
  }

  /**
   * Returns the stop at the goal, at a breakpoint, or for another reason that the bench reports; null if there is none.
   * @param {Frame} frame
   * @param {BreakpointEvents} events the breakpoint events that were found in advance
   * @param {number} cyclesBeforeGoal the cycles before the goal, -1 if it was not found
   * @returns {Stop | null}
   */
  findStop(frame, events, cyclesBeforeGoal) {
    const cycles = this.session.count.total - this.startTotal;
    const endsAtReturn = this.watcher !== null && this.watcher.endsAtReturn;
    if (cyclesBeforeGoal >= 0 && frame.cycles === cyclesBeforeGoal) return { reason: "goal", id: 0, cycles, endsAtReturn };
    if (events.cycles >= 0 && frame.cycles === events.cycles) {
      return { reason: events.reason, id: events.id, cycles, endsAtReturn: false, change: events.change };
    }
    if (!frame.end) return null;
    const run = readRun(frame.end);
    return { reason: run ? run.end : frame.end, id: this.breakpointIdAtStop(run ? run.end : ""), cycles, endsAtReturn: false };
  }

  /**
   * Returns the id of the breakpoint that ended a run at the current address, 0 for none.
   * @param {string} reason the bench's word for the reason why the run ended
   */
  breakpointIdAtStop(reason) {
    if (reason !== "break" || !this.hardBreakpoints) return 0;
    return this.hardBreakpoints.get(this.counter) || 0;
  }

  /** The address of the next instruction. */
  get counter() {
    return parseCounter(this.session.ask("regs\n")[0]).counter;
  }

  /** Ends a move or run. If its last lines are not yet checked for mistakes, checks them first. */
  endMove() {
    this.checkLastLines();
    this.watcher = null;
    this.session.timeline.recordStop();
  }

  /**
   * Returns the tally of lines that have run, without the common mistakes that they made.
   * @param {BreakpointEvents} events the breakpoint events that were found in advance
   * @param {{ reason: string, id: number } | null} stop
   * @param {number} countBefore the cycle count before the lines
   * @returns {Tally}
   */
  createTally({ hits, notes, noteCount, id }, stop, countBefore) {
    /** @type {[number, number][]} */
    const allHits = [...hits];
    if (stop && stop.reason === "break" && stop.id !== 0 && stop.id !== id) allHits.push([stop.id, 1]);
    return { hits: allHits, notes: notes.map((note) => ({ ...note, cycles: countBefore + note.cycles })), noteCount, mistakes: [] };
  }

  // --- Moves ---

  /**
   * Moves to a near goal or an earlier stop. If the goal is not near, only starts the move, and `advance` continues it.
   * @param {Goal} requestedGoal
   * @param {number} maxDistance the maximum distance of a near goal, in cycles
   * @param {ShouldContinue} shouldContinue
   * @returns {Promise<RunResult>}
   */
  async runToGoal(requestedGoal, maxDistance, shouldContinue) {
    this.beginMove();
    const { session } = this;
    const goal = this.compileGoal(requestedGoal);
    const readCodes = () => session.romBytes;
    const watcher = createWatcher(session.engine, session.file, goal, readCodes);
    const endsAtReturn = watcher !== null && watcher.endsAtReturn;
    const goalResult = await searchGoal(session.engine, session.file, goal, shouldContinue, maxDistance, readCodes);
    const goalSearch = { ...goalResult, id: 0, endsAtReturn };
    if (!watcher) return { searchResult: goalSearch, result: null, tally: NO_TALLY };
    const events = await this.searchForStop(goalSearch.cycles, shouldContinue);
    if (goalSearch.end === "bound" && events.cycles < 0) {
      this.watcher = watcher;
      return { searchResult: goalSearch, result: null, tally: NO_TALLY };
    }
    const { cycles, id, change } = events;
    const searchResult = cycles < 0 ? { ...goalSearch, change: "" }
      : { cycles, isReached: false, end: events.reason, id, endsAtReturn, change };
    const result = await session.serve(formatRunLines(Math.max(1, searchResult.cycles)), async () => true);
    this.stopFinder.countEvents(events);
    if (!searchResult.isReached && searchResult.id === 0) searchResult.id = this.breakpointIdAtStop(searchResult.end);
    return { searchResult, result, tally: this.createTally(events, { reason: searchResult.end, id: searchResult.id }, this.startTotal) };
  }

  /**
   * Resolves to the breakpoint events in the next cycles, up to the first stop. Assumes that no key changes.
   * @param {number} cycles
   * @param {ShouldContinue} shouldContinue
   */
  async searchForStop(cycles, shouldContinue) {
    const allEvents = createEmptyEvents();
    if (this.stopFinder.isEmpty) return allEvents;
    const { engine, file } = this.session;
    const copy = file.slice();
    for (let doneCycles = 0; doneCycles < cycles;) {
      const pieceCycles = Math.min(SEARCH_PIECE_CYCLES, cycles - doneCycles);
      const plannedLines = formatRunLines(pieceCycles).trimEnd().split("\n").map((line) => ({ line, change: null }));
      const events = this.stopFinder.searchLines(engine, copy, plannedLines);
      for (const [id, hits] of events.hits) allEvents.hits.set(id, (allEvents.hits.get(id) || 0) + hits);
      allEvents.notes = [...allEvents.notes, ...events.notes.map((note) => ({ ...note, cycles: note.cycles + doneCycles }))];
      allEvents.noteCount += events.noteCount;
      for (const [id, count] of events.changes) allEvents.changes.set(id, (allEvents.changes.get(id) || 0) + count);
      if (events.cycles >= 0) {
        return { ...events, ...allEvents, cycles: doneCycles + events.cycles, id: events.id, reason: events.reason, change: events.change };
      }
      engine.serve(copy, formatRunLines(pieceCycles), copy);
      doneCycles += pieceCycles;
      if (doneCycles < cycles && !(await shouldContinue(doneCycles))) break;
    }
    return allEvents;
  }

  /**
   * Executes typed bench lines. If the call fails or is cancelled, no line takes effect. A `run` line ends at its first breakpoint.
   * @param {string} lines
   * @param {(done: number) => Promise<boolean>} shouldContinue called with the number of processed characters; resolves to true to continue
   * @returns {Promise<{ result: LinesResult & { snapshot: string[] }, typedResult: TypedResult }>}
   */
  async serveTypedLines(lines, shouldContinue) {
    const { session, stopFinder } = this;
    const countBefore = session.count.total;
    const { counts } = stopFinder;
    try {
      const { lines: plannedLines, runs, ...stop } = await planTypedLines(session.engine, session.file, stopFinder, lines, shouldContinue);
      const result = await session.serve(plannedLines, shouldContinue);
      this.commonMistakes.forgetRom();
      const tallies = runs.map(({ events, cyclesBefore }) => this.createTally(events, null, countBefore + cyclesBefore));
      return { result, typedResult: { ...stop, cycles: session.count.total - countBefore, tally: tallies.reduce(joinTallies, NO_TALLY) } };
    } catch (error) {
      stopFinder.restoreCounts(counts);
      throw error;
    }
  }

  /**
   * Returns a goal with its compiled condition. Throws an error if the condition is invalid; callers check the condition first.
   * @template {Goal | BackGoal} AnyGoal
   * @param {AnyGoal} goal
   * @returns {AnyGoal}
   */
  compileGoal(goal) {
    if (goal.kind !== "when" || !this.names) return goal;
    const { searchCondition, error } = compileSearchCondition(goal.condition, this.names);
    if (!searchCondition) throw new Error(error);
    return { ...goal, searchCondition };
  }

  // --- The past ---

  /**
   * Moves back to a goal in the past. The current breakpoints remain set.
   * @param {BackGoal} goal
   * @param {(done?: number) => Promise<boolean>} shouldContinue
   * @returns {Promise<BackResult>}
   */
  async goBack(goal, shouldContinue) {
    this.beginMove();
    const { session } = this;
    const { moment, sessionAtMoment, ...report } = await this.findPastGoal(goal, shouldContinue);
    if (!moment) return { ...report, isDone: false, hasChangedBoard: false, cycles: 0 };
    const target = sessionAtMoment || await session.timeline.sessionAt(session.engine, moment, shouldContinue);
    session.timeline.goBack(moment, session);
    return { ...report, ...this.restoreMoment(target) };
  }

  /**
   * Searches the past for a goal. Resolves to the search result with the moment of the goal.
   * @param {BackGoal} goal
   * @param {(done?: number) => Promise<boolean>} shouldContinue
   * @returns {Promise<BackSearchResult>}
   */
  async findPastGoal(goal, shouldContinue) {
    const { session, watches } = this;
    if (goal.kind === "call") return findLastCall(session, goal.call, goal.returns, shouldContinue);
    if (goal.kind === "arrival") {
      return findLastArrival(session, this.stoppingBreakpoints(), { place: goal.place, watches }, shouldContinue);
    }
    return findPastGoal(session.engine, session, this.compileGoal(goal), shouldContinue);
  }

  /**
   * Returns the breakpoints that stop the machine, in the form of soft breakpoints. Until `setBreakpoints` is called, these are the
   * breakpoints of the bench.
   * @returns {SoftBreakpoint[]}
   */
  stoppingBreakpoints() {
    const hardBreakpoints = this.hardBreakpoints || new Map(this.session.breakpointAddresses.map((address) => [address, 0]));
    const unconditionalFields = { from: 1, hits: 0, places: [], holds: () => true, noteText: null };
    const softBreakpoints = this.stopFinder.arrivals.breakpoints.filter(({ noteText }) => !noteText);
    return [...[...hardBreakpoints].map(([address, id]) => ({ ...unconditionalFields, id, address })), ...softBreakpoints];
  }

  /**
   * Finds the last change of a place. The session stays at the present moment.
   * @param {string} place
   * @param {(done?: number) => Promise<boolean>} shouldContinue
   * @returns {Promise<LastChange>}
   */
  async findLastChange(place, shouldContinue) {
    const { session } = this;
    const goal = /** @type {const} */ ({ kind: "change", place });
    const { moment, sessionAtMoment, ...report } = await findPastGoal(session.engine, session, goal, shouldContinue);
    if (!moment) return { ...report, isFound: false, cycles: 0, address: -1 };
    const { file, count } = sessionAtMoment || await session.timeline.sessionAt(session.engine, moment, shouldContinue);
    const { counter } = parseCounter(session.engine.ask(file, "regs\n").answers[0]);
    return { ...report, isFound: true, cycles: session.count.total - count.total, address: report.line ? -1 : counter };
  }

  /**
   * Undoes the last backward move: returns to the moment from which that move started. In the result, `isDone` is false if there is no move
   * to undo.
   * @returns {BackResult}
   */
  goForward() {
    this.beginMove();
    const sessionAtMoment = this.session.timeline.goForward();
    return sessionAtMoment
      ? { ...EMPTY_SEARCH_RESULT, ...this.restoreMoment(sessionAtMoment) }
      : { ...EMPTY_SEARCH_RESULT, isDone: false, hasChangedBoard: false, cycles: 0 };
  }

  /**
   * Replaces the state of the session with the state at another moment, but keeps the current breakpoints. Returns the fields `isDone`,
   * `hasChangedBoard` and `cycles` of a `BackResult`.
   * @param {SessionAtMoment} sessionAtMoment
   */
  restoreMoment(sessionAtMoment) {
    const { session } = this;
    const countBefore = session.count.total;
    const hasChangedBoard = session.replaceState(sessionAtMoment);
    const lines = this.hardBreakpointLines();
    if (lines) session.changeBreakpoints(lines);
    this.commonMistakes.forgetRom();
    this.startTotal = session.count.total;
    return { isDone: true, hasChangedBoard, cycles: Math.abs(session.count.total - countBefore) };
  }

  // --- Values ---

  /**
   * Returns the current values of places as text; "" for a place that the board does not have.
   * @param {string[]} names place names (conditions/places.js)
   * @returns {string[]}
   */
  values(names) {
    const board = readBoard(this.session.statusQueries.board);
    const places = names.map((name) => parsePlace(name));
    const probes = places.map((place) => (place ? place.probesOn(board) : []));
    const answers = this.readPlaces(probes.flat());
    let from = 0;
    return places.map((place, index) => {
      const values = answers.slice(from, from += probes[index].length);
      return place && values.length > 0 ? place.textOf(values) : "";
    });
  }

  /**
   * Returns the current values of `trace` places and `state` places.
   * @param {string[]} places
   */
  readPlaces(places) {
    if (places.length === 0) return [];
    const probes = new Probes(places);
    return probes.takeValues(new ForecastAnswers(this.session.ask(probes.lines)));
  }
}
