// Finds the target of a move back. The target is the last stop, the start of the last instruction, the moment before the last change of a
// `trace` place, or the moment before a condition became true. (For the last arrival at a breakpoint, see last_arrival.js.)

import { readBoard, readCounter } from "../bench/answers.js";
import { CancelledError } from "../bench/bench_errors.js";
import { parsePlace } from "../conditions/places.js";
import { becomesTrue } from "../debug/condition_search.js";
import { reportChanges } from "./past_changes.js";
import { SEARCH_PIECE_CYCLES, SEARCH_PIECE_UNITS } from "./piece_size.js";
import { rowValues } from "./forecast_answers.js";
import { sumCycles, splitIntoPieces, unitsBetween } from "./replay_units.js";

/**
 * @typedef {import("./engine_host.js").EngineHost} Engine
 * @typedef {import("../conditions/places.js").Place} Place
 * @typedef {import("./timeline.js").ShouldContinue} ShouldContinue
 * @typedef {import("./timeline.js").Moment} Moment
 * @typedef {import("./timeline.js").Timeline} Timeline
 * @typedef {import("./replay_units.js").Unit} Unit
 *
 * The target of a move back. "stop": the last moment at which the machine was paused. "instruction": the start of the last instruction.
 * "change": the moment before the last change of `place`. "arrival": the last arrival at a breakpoint, or the moment before a change of a
 * watched value or of `place` ("" for none). "when": the moment before a condition became true; `searchCondition` is the compiled
 * condition. "call": the call of a subroutine that has not returned, given by the address of its JMS and the return addresses before the
 * call.
 * @typedef {{ kind: "stop" } | { kind: "instruction" } | { kind: "change", place: string } | { kind: "arrival", place: string }
 *   | { kind: "when", condition: string, searchCondition?: import("../debug/condition_search.js").SearchCondition }
 *   | { kind: "call", call: number, returns: string[] }} BackGoal
 *
 * The result of a search of the past. If nothing was found, `moment` is null, and `reason` is "short" (the past is too short) or "lacks"
 * (the board does not have the place). For a change, the result has the changed place, the old value (`from`), the new value (`to`), and
 * the command that made the change (`line`, "" for an instruction). For an arrival, `end` is its kind: a breakpoint (with its `id`), a
 * change, or the start of the stored past. `sessionAtMoment` is the session at `moment`, null if not known.
 * @typedef {{ moment: Moment | null, reason: "" | "short" | "lacks", place: string, from: string, to: string, line: string,
 *   end: "" | "break" | "change" | "beginning", id: number,
 *   sessionAtMoment: import("./timeline.js").SessionAtMoment | null }} BackSearchResult
 *
 * An object that searches a part of the past. `begin` sets the session from which to replay. `findLastIn` replays consecutive units from
 * that session, and returns the last match in these units.
 * @typedef {{ begin: (start: import("./timeline.js").SessionAtMoment) => void,
 *   findLastIn: (units: Unit[]) => BackSearchResult | null }} Finder
 */

/**
 * The length of the first block of a search, in cycles before the present. Each further block is BLOCK_GROWTH times as long, up to
 * MAX_BLOCK_CYCLES.
 */
const FIRST_BLOCK_CYCLES = 500;
const BLOCK_GROWTH = 8;
const MAX_BLOCK_CYCLES = 4000000;

/** @type {Omit<BackSearchResult, "moment" | "sessionAtMoment">} the default fields of a result */
export const EMPTY_SEARCH_RESULT = { reason: "", place: "", from: "", to: "", line: "", end: "", id: 0 };

/**
 * Returns a search result with the given fields; the other fields are null or empty.
 * @param {Partial<BackSearchResult>} fields
 * @returns {BackSearchResult}
 */
export function createSearchResult(fields) {
  return { moment: null, sessionAtMoment: null, ...EMPTY_SEARCH_RESULT, ...fields };
}

/**
 * Resolves to a search result with the start of the last instruction. This instruction started one cycle ago, or two cycles ago if the last
 * cycle was its second cycle.
 * @param {Engine} engine
 * @param {Timeline} timeline
 * @param {ShouldContinue} shouldContinue
 */
async function findLastInstruction(engine, timeline, shouldContinue) {
  for (const cycles of [1, 2]) {
    const moment = timeline.momentBefore(cycles);
    if (!moment) break;
    const sessionAtMoment = await timeline.sessionAt(engine, moment, shouldContinue);
    const { owed } = readCounter(engine.ask(sessionAtMoment.file, "regs\n").answers[0]);
    if (owed === "0") return createSearchResult({ moment, sessionAtMoment });
  }
  return createSearchResult({ reason: "short" });
}

/** Finds the last change of a `trace` place. A result has the moment before the instruction or command that made the change. */
export class LastChangeFinder {
  /**
   * @param {Engine} engine
   * @param {Place | null} place null in a subclass that searches for something else
   * @param {string[]} probes the places to trace
   */
  constructor(engine, place, probes) {
    this.engine = engine;
    this.place = place;
    this.probes = probes;
    this.file = new Uint8Array(0);
  }

  /** @param {import("./timeline.js").SessionAtMoment} start */
  begin({ file }) {
    this.file = file;
  }

  /** @param {Unit[]} units */
  findLastIn(units) {
    const { engine, file, probes } = this;
    /** @type {BackSearchResult | null} */
    let match = null;
    reportChanges(engine, file, units, [probes], ({ before, after, unit, cycles, line }) => {
      const moment = { ...unit.moment, cycles: unit.moment.cycles + cycles };
      const change = this.changeBetween(before, after);
      if (change) match = createSearchResult({ moment, line, ...change, end: "change" });
    });
    return match;
  }

  /**
   * Returns the result fields that describe a change; null if the change is not one that this finder looks for.
   * @param {string} rowBefore the trace row before the change
   * @param {string} rowAfter the trace row after the change
   * @returns {Partial<BackSearchResult> | null}
   */
  changeBetween(rowBefore, rowAfter) {
    const { place } = this;
    if (!place) return null;
    const [from, to] = [rowBefore, rowAfter].map((row) => place.textOf(rowValues(row)));
    return { place: place.name, from, to };
  }
}

/** Finds the moment before a condition last became true. */
class LastTrueFinder extends LastChangeFinder {
  /**
   * @param {Engine} engine
   * @param {import("../debug/condition_search.js").SearchCondition} condition
   */
  constructor(engine, condition) {
    super(engine, null, condition.places);
    this.searchCondition = condition;
  }

  /**
   * @param {string} rowBefore
   * @param {string} rowAfter
   */
  changeBetween(rowBefore, rowAfter) {
    return becomesTrue(this.searchCondition, rowBefore, rowAfter) ? {} : null;
  }
}

/**
 * Resolves to the last match in the past. The search goes back from the present, block by block. Throws CancelledError if `shouldContinue`
 * resolves to false.
 * @param {Engine} engine
 * @param {Timeline} timeline
 * @param {Finder} finder
 * @param {ShouldContinue} shouldContinue
 * @returns {Promise<{ lastMatch: BackSearchResult | null, start: Moment }>} `start` is the start of the searched part; if there is no
 *   match, this is the start of the stored past
 */
export async function searchPast(engine, timeline, finder, shouldContinue) {
  let to = timeline.presentMoment;
  for (let blockCycles = FIRST_BLOCK_CYCLES; ; blockCycles = Math.min(MAX_BLOCK_CYCLES, blockCycles * BLOCK_GROWTH)) {
    // At the start of a segment, the search continues at the end of the previous segment.
    if (to.entry === 0 && to.cycles === 0) {
      if (!timeline.segments[to.segment].follows) return { lastMatch: null, start: to };
      const { entries } = timeline.segments[to.segment - 1];
      to = { segment: to.segment - 1, entry: entries.length, cycles: 0 };
    }
    const requestedStart = timeline.momentBefore(blockCycles, to);
    const from = requestedStart && requestedStart.segment === to.segment ? requestedStart : { segment: to.segment, entry: 0, cycles: 0 };
    finder.begin(await timeline.sessionAt(engine, from, shouldContinue));
    /** @type {BackSearchResult | null} */
    let match = null;
    for (const units of splitIntoPieces(unitsBetween(timeline, from, to), SEARCH_PIECE_CYCLES, SEARCH_PIECE_UNITS)) {
      match = finder.findLastIn(units) || match;
      if (!(await shouldContinue(sumCycles(units)))) throw new CancelledError();
    }
    if (match) return { lastMatch: match, start: from };
    to = from;
  }
}

/**
 * Returns a finder for the last change of a `trace` place; null if the board does not have the place.
 * @param {Engine} engine
 * @param {Uint8Array} file
 * @param {string} name
 */
export function createChangeFinder(engine, file, name) {
  const place = parsePlace(name);
  const probes = place ? place.probesOn(readBoard(engine.ask(file, "board\n").answers)) : [];
  return place && probes.length > 0 ? new LastChangeFinder(engine, place, probes) : null;
}

/**
 * Resolves to a search result with the moment to which a move back goes, or with the `reason` why there is no such moment.
 * @param {Engine} engine
 * @param {{ timeline: Timeline, file: Uint8Array }} session
 * @param {Exclude<BackGoal, { kind: "arrival" | "call" }>} goal
 * @param {ShouldContinue} shouldContinue
 * @returns {Promise<BackSearchResult>}
 */
export async function findPastGoal(engine, { timeline, file }, goal, shouldContinue) {
  if (goal.kind === "change") {
    const finder = createChangeFinder(engine, file, goal.place);
    if (!finder) return createSearchResult({ reason: "lacks", place: goal.place });
    const { lastMatch } = await searchPast(engine, timeline, finder, shouldContinue);
    return lastMatch || createSearchResult({ reason: "short", place: goal.place });
  }
  if (goal.kind === "when") {
    const finder = goal.searchCondition ? new LastTrueFinder(engine, goal.searchCondition) : null;
    const match = finder ? (await searchPast(engine, timeline, finder, shouldContinue)).lastMatch : null;
    return match || createSearchResult({ reason: "short" });
  }
  if (goal.kind === "instruction") return findLastInstruction(engine, timeline, shouldContinue);
  const moment = timeline.lastStop();
  return createSearchResult({ moment, reason: moment ? "" : "short" });
}
