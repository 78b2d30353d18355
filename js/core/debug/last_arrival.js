// Searches the past for the last arrival at a breakpoint, the last change of a watched place, or the call of a subroutine that has not
// returned. A copy of the session, with the current breakpoints, replays the past in blocks. The search ignores hit counts. It also ignores
// breakpoints that log a note instead of stopping.

import { readItems, watchedPlaces } from "../bench/answers.js";
import { createSearchResult, createChangeFinder, searchPast } from "../engine/past_search.js";
import { Arrivals } from "./arrivals.js";
import { parseCounter } from "./goals.js";

/**
 * @typedef {import("../engine/engine_host.js").EngineHost} Engine
 * @typedef {import("../engine/past_search.js").BackSearchResult} BackSearchResult
 * @typedef {import("../engine/past_search.js").Finder} Finder
 * @typedef {import("../engine/timeline.js").ShouldContinue} ShouldContinue
 * @typedef {import("../engine/timeline.js").SessionAtMoment} SessionAtMoment
 * @typedef {import("../engine/replay_units.js").Unit} Unit
 * @typedef {import("../engine/worker_session.js").WorkerSession} WorkerSession
 * @typedef {import("./arrivals.js").SoftBreakpoint} SoftBreakpoint
 */

/** Matches bench lines that set or delete breakpoints or watches. */
const BREAKPOINT_OR_WATCH_LINE = /^(un)?(break|watch) /;
/** The length of a JMS in cycles. */
const JMS_CYCLES = 2;

/** Finds the last arrival at a breakpoint whose condition is true. */
class LastArrivalFinder {
  /**
   * @param {WorkerSession} session
   * @param {SoftBreakpoint[]} breakpoints
   */
  constructor(session, breakpoints) {
    this.engine = session.engine;
    this.arrivals = new Arrivals(breakpoints);
    /** The cycle count and the program counter at present. An arrival at the present moment is ignored. */
    this.presentMoment = { total: session.count.total, counter: parseCounter(session.ask("regs\n")[0]).counter };
    this.fileCopy = new Uint8Array(0);
    this.totalCycles = 0;
    /** The cycle count at the last arrival that was found. */
    this.lastArrivalTotal = 0;
  }

  /**
   * Starts the replay at a past moment, on a copy of the session with the current breakpoints.
   * @param {SessionAtMoment} sessionAtMoment
   */
  begin({ file, count }) {
    const { engine, arrivals } = this;
    const [breaks, watches] = engine.ask(file, "breaks\nwatches\n").answers.map(readItems);
    const removalLines = [
      ...breaks.map((address) => `unbreak 0x${address}\n`), ...watches.map((watch) => `unwatch ${watch.replace(".", " 0x")}\n`)];
    this.fileCopy = file.slice();
    engine.serve(this.fileCopy, removalLines.join("") + arrivals.setupLines, this.fileCopy);
    this.totalCycles = count.total;
  }

  /**
   * Replays units (replay_units.js), which are consecutive parts of the past. Returns the last arrival in these units; null if there is
   * none.
   * @param {Unit[]} units
   * @returns {BackSearchResult | null}
   */
  findLastIn(units) {
    const { engine, arrivals, fileCopy, presentMoment } = this;
    /** @type {BackSearchResult | null} */
    let lastArrival = null;
    let [lines, answerCount] = ["", 0];
    for (const { line, cycles, moment } of units) {
      if (cycles === 0) {
        // The replay skips lines that changed breakpoints or watches in the past, and `run` and `step` lines of 0 cycles.
        if (BREAKPOINT_OR_WATCH_LINE.test(line) || /^(run|step)\b/.test(line)) continue;
        [lines, answerCount] = [`${lines}${line}\n`, answerCount + 1];
        continue;
      }
      const cyclesBefore = this.totalCycles;
      arrivals.runWithBreakpoints(engine, fileCopy, { lines, count: answerCount, cycles }, (_, row, cyclesRun) => {
        const breakpoint = arrivals.findBreakpoint(row);
        const isNow = cyclesBefore + cyclesRun === presentMoment.total
          && breakpoint !== null && breakpoint.address === presentMoment.counter;
        if (breakpoint && !isNow) {
          lastArrival = createSearchResult({ moment: { ...moment, cycles: moment.cycles + cyclesRun }, end: "break", id: breakpoint.id });
          this.lastArrivalTotal = cyclesBefore + cyclesRun;
        }
        return false;
      });
      [lines, answerCount] = ["", 0];
      this.totalCycles += cycles;
    }
    if (lines !== "") engine.serve(fileCopy, lines, fileCopy);
    return lastArrival;
  }
}

/**
 * Returns the search result with the later moment, or `first` if the moments are equal. If one result is null, returns the other result.
 * @param {BackSearchResult | null} first
 * @param {BackSearchResult | null} second
 */
function laterResult(first, second) {
  if (!first || !second) return first || second;
  const [a, b] = [first, second].map(({ moment }) => moment || { segment: -1, entry: -1, cycles: -1 });
  const order = [b.segment - a.segment, b.entry - a.entry, b.cycles - a.cycles].find((difference) => difference !== 0) || 0;
  return order > 0 ? second : first;
}

/**
 * Returns a finder that calls several finders, and returns the latest of their results.
 * @param {Finder[]} finders
 * @returns {Finder}
 */
function combineFinders(finders) {
  return {
    begin: ({ file, count }) => finders.forEach((finder) => finder.begin({ file: file.slice(), count })),
    findLastIn: (units) => finders.map((finder) => finder.findLastIn(units)).reduce(laterResult, null),
  };
}

/**
 * The places whose changes are searched for, in addition to those that the bench watches: `place` ("" for none), and the places of the data
 * watches.
 * @typedef {{ place: string, watches?: import("./data_watches.js").DataWatches }} ExtraWatches
 */

/**
 * Finds the last arrival at a breakpoint, or the last change of a watched place, before the present. Resolves to a search result with that
 * moment, or with the start of the stored past if there is no such moment. The result has a `reason` instead if the board lacks the place,
 * or if no past is stored.
 * @param {WorkerSession} session
 * @param {SoftBreakpoint[]} breakpoints the breakpoints that stop the machine
 * @param {ExtraWatches} extraWatches
 * @param {ShouldContinue} shouldContinue
 * @returns {Promise<BackSearchResult>}
 */
export async function findLastArrival(session, breakpoints, { place, watches }, shouldContinue) {
  const { engine, file, timeline } = session;
  const places = [...watchedPlaces(session.ask("watches\n")[0]), ...(place === "" ? [] : [place])];
  const changeFinders = places.map((placeName) => createChangeFinder(engine, file, placeName));
  if (changeFinders.some((finder) => finder === null)) return createSearchResult({ reason: "lacks", place });
  const finders = [...changeFinders.flatMap((finder) => (finder ? [finder] : [])), ...(watches ? watches.createFinders(engine) : [])];
  const combinedFinder = combineFinders([...(breakpoints.length > 0 ? [new LastArrivalFinder(session, breakpoints)] : []), ...finders]);
  const { lastMatch, start } = await searchPast(engine, timeline, combinedFinder, shouldContinue);
  if (lastMatch) return lastMatch;
  const { presentMoment } = timeline;
  const isPastEmpty = start.segment === presentMoment.segment && presentMoment.entry === 0;
  return isPastEmpty ? createSearchResult({ reason: "short" }) : createSearchResult({ moment: start, end: "beginning" });
}

/**
 * Finds the start of a subroutine that has not returned. Resolves to a search result with the moment after the JMS that called the
 * subroutine. If the stored past does not reach back to the call, the result has a `reason` instead.
 * @param {WorkerSession} session
 * @param {number} call the address of the JMS
 * @param {string[]} returns the return addresses before the JMS, newest first
 * @param {ShouldContinue} shouldContinue
 * @returns {Promise<BackSearchResult>}
 */
export async function findLastCall(session, call, returns, shouldContinue) {
  const holds = (/** @type {string[]} */ [answer]) => returns.every((returnAddress, index) => answer.split(",")[index] === returnAddress);
  const finder = new LastArrivalFinder(session, [{ id: 0, address: call, from: 1, hits: 0, places: ["ret"], holds, noteText: null }]);
  const { lastMatch } = await searchPast(session.engine, session.timeline, finder, shouldContinue);
  const cyclesBack = session.count.total - finder.lastArrivalTotal - JMS_CYCLES;
  if (!lastMatch || cyclesBack < 0) return createSearchResult({ reason: "short" });
  const moment = cyclesBack === 0 ? session.timeline.presentMoment : session.timeline.momentBefore(cyclesBack);
  return moment ? createSearchResult({ moment }) : createSearchResult({ reason: "short" });
}
