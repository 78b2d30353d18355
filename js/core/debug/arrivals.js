// Finds arrivals at soft breakpoints. A soft breakpoint does not stop the machine at every arrival: it has a condition or a hit count, or
// it logs a note instead of stopping. A copy of the session runs in advance and stops at each arrival. At each stop, queries read the
// places that the conditions and notes use.

import { Probes } from "../conditions/probes.js";
import { ForecastAnswers } from "../engine/forecast_answers.js";
import { plannedCycles } from "./goal_search.js";

/**
 * @typedef {import("../engine/engine_host.js").EngineHost} Engine
 * @typedef {import("../engine/key_queue.js").PlannedLine} PlannedLine
 *
 * A compiled soft breakpoint. `from` is the number of the first hit that stops the machine. `holds` evaluates the condition for the values
 * of `places`. `noteText` returns the text of the note for these values; it is null for a breakpoint that stops the machine.
 * @typedef {{ id: number, address: number, from: number, hits: number, places: string[], holds: (values: string[]) => boolean,
 *   noteText: ((values: string[]) => string) | null }} SoftBreakpoint
 *
 * @typedef {{ id: number, cycles: number, text: string }} LoggedNote a logged note: the id of its breakpoint, the number of cycles before
 *   the note, and its text
 *
 * The breakpoint events that the next lines will cause. `cycles`: the cycles before the first stop, -1 for no stop. `id`: the id of the
 * breakpoint or watch that stops the machine, 0 for none. `hits`: the numbers of new hits, by breakpoint id. `notes`: the last logged
 * notes; `noteCount`: the number of all logged notes. `reason`: "watch" if a change of a watched place stops the machine; `change`
 * describes this change. `changes`: for each watch id, the number of changes that count (data_watches.js).
 * @typedef {{ cycles: number, id: number, hits: Map<number, number>, notes: LoggedNote[], noteCount: number, reason: "break" | "watch",
 *   change: string, changes: Map<number, number> }} BreakpointEvents
 */

/** The maximum number of `run` lines in one request to the bench. */
const MAX_RUNS = 400;
/** The maximum number of notes in one report. */
export const MAX_NOTES = 200;

/**
 * Returns breakpoint events without a stop, a hit or a note.
 * @returns {BreakpointEvents}
 */
export function createEmptyEvents() {
  return { cycles: -1, id: 0, hits: new Map(), notes: [], noteCount: 0, reason: "break", change: "", changes: new Map() };
}

/** Finds arrivals at soft breakpoints. */
export class Arrivals {
  /** @param {SoftBreakpoint[]} breakpoints the soft breakpoints, at most one per address */
  constructor(breakpoints) {
    this.breakpoints = breakpoints;
    this.breakpointsByAddress = new Map(breakpoints.map((breakpoint) => [breakpoint.address, breakpoint]));
    this.places = ["pc", ...new Set(breakpoints.flatMap(({ places }) => places))];
    this.placeIndexes = new Map(breakpoints.map(({ id, places }) => [id, places.map((place) => this.places.indexOf(place))]));
    /** The bench lines that set the breakpoints. */
    this.setupLines = breakpoints.map(({ address }) => `break ${address}\n`).join("");
    /** The queries that follow each run. */
    this.probes = new Probes(this.places);
    /** The number of arrivals per cycle in the previous run. */
    this.arrivalsPerCycle = 0;
    /** The copy of the session that runs in advance. */
    this.fileCopy = new Uint8Array(0);
  }

  get isEmpty() {
    return this.breakpoints.length === 0;
  }

  /**
   * Searches the next lines for arrivals, up to the first arrival that stops the machine.
   * @param {Engine} engine
   * @param {Uint8Array} file the session file; not changed
   * @param {PlannedLine[]} plannedLines
   * @returns {BreakpointEvents}
   */
  searchLines(engine, file, plannedLines) {
    const events = createEmptyEvents();
    if (this.isEmpty) return events;
    if (this.arrivalsPerCycle === 0 && this.hasNoArrival(engine, file, plannedLines)) return events;
    if (this.fileCopy.length !== file.length) this.fileCopy = new Uint8Array(file.length);
    this.fileCopy.set(file);
    let [lines, answerCount, doneCycles] = [this.setupLines, this.breakpoints.length, 0];
    for (const plannedLine of plannedLines) {
      if (plannedLine.change) {
        lines += `${plannedLine.line}\n`;
        answerCount += 1;
        continue;
      }
      const cyclesBefore = doneCycles;
      const cyclesRun = this.runWithBreakpoints(engine, this.fileCopy, { lines, count: answerCount, cycles: plannedCycles(plannedLine) },
        (end, row, partCycles) => end !== "break" || this.recordArrival(row, cyclesBefore + partCycles, events));
      if (cyclesRun < 0) return events;
      doneCycles += cyclesRun;
      [lines, answerCount] = ["", 0];
    }
    return events;
  }

  /**
   * Returns whether the next lines run to their end without a stop. This check takes only one request to the bench.
   * @param {Engine} engine
   * @param {Uint8Array} file
   * @param {PlannedLine[]} plannedLines
   */
  hasNoArrival(engine, file, plannedLines) {
    const answers = engine.ask(file, this.setupLines + plannedLines.map(({ line }) => `${line}\n`).join("")).answers
      .slice(this.breakpoints.length);
    return plannedLines.every(({ change }, index) => change !== null || answers[index].endsWith(" end"));
  }

  /**
   * Runs a copy of the session in which the breakpoints are set. Returns the number of cycles that have run, or -1 if `visit` ends the run.
   * @param {Engine} engine
   * @param {Uint8Array} file the copy of the session; modified in place
   * @param {{ lines: string, count: number, cycles: number }} run the lines before the run, the number of their answers, and the number of
   *   cycles to run
   * @param {(end: string, row: string[], cyclesRun: number) => boolean} visit called at each stop with the bench's reason for the stop
   *   (such as "break"), the values of `places`, and the cycles so far; returns true to end the run
   */
  runWithBreakpoints(engine, file, { lines, count, cycles }, visit) {
    let [linesBefore, skippedCount, cyclesRun, arrivalCount] = [lines, count, 0, 0];
    while (cyclesRun < cycles) {
      const cyclesLeft = cycles - cyclesRun;
      const runCount = Math.min(cyclesLeft, MAX_RUNS, Math.max(1, Math.round(2 * this.arrivalsPerCycle * cyclesLeft)));
      const runAndQueryLines = `run ${Math.floor(cyclesLeft / runCount)}\n${this.probes.lines}`;
      const answers = new ForecastAnswers(engine.serve(file, linesBefore + runAndQueryLines.repeat(runCount), file).answers);
      answers.skip(skippedCount);
      [linesBefore, skippedCount] = ["", 0];
      while (!answers.isEmpty) {
        const { cycles: partCycles, end } = answers.takeRun();
        const row = this.probes.takeValues(answers);
        cyclesRun += partCycles;
        if (end === "end") continue;
        arrivalCount += 1;
        if (visit(end, row, cyclesRun)) return -1;
      }
    }
    this.arrivalsPerCycle = arrivalCount / cycles;
    return cyclesRun;
  }

  /**
   * Returns the breakpoint at the program counter if its condition is true; otherwise null.
   * @param {string[]} row the values of `places`, beginning with the program counter
   */
  findBreakpoint(row) {
    const breakpoint = this.breakpointsByAddress.get(parseInt(row[0], 16));
    return breakpoint && breakpoint.holds(this.breakpointValues(breakpoint, row)) ? breakpoint : null;
  }

  /**
   * Returns the values of a breakpoint's places.
   * @param {SoftBreakpoint} breakpoint
   * @param {string[]} row the values of `places`
   */
  breakpointValues({ id }, row) {
    return (this.placeIndexes.get(id) || []).map((index) => row[index]);
  }

  /**
   * Counts an arrival at a breakpoint and logs the note of the breakpoint. Returns whether the arrival stops the machine.
   * @param {string[]} row the values of `places`
   * @param {number} cycles the cycles before the arrival
   * @param {BreakpointEvents} events receives the hit, and the note or the stop
   */
  recordArrival(row, cycles, events) {
    const breakpoint = this.breakpointsByAddress.get(parseInt(row[0], 16));
    // A breakpoint that is not in this list is a hard breakpoint of the session, which always stops the machine.
    if (!breakpoint) return true;
    const { id, holds, noteText, from } = breakpoint;
    const values = this.breakpointValues(breakpoint, row);
    if (!holds(values)) return false;
    const hits = (events.hits.get(id) || 0) + 1;
    events.hits.set(id, hits);
    if (breakpoint.hits + hits < from) return false;
    if (noteText) {
      events.noteCount += 1;
      if (events.notes.length === MAX_NOTES) events.notes.shift();
      events.notes.push({ id, cycles, text: noteText(values) });
      return false;
    }
    events.cycles = cycles;
    events.id = id;
    return true;
  }

  /** The hit counts, in the order of `breakpoints`. */
  get counts() {
    return this.breakpoints.map(({ hits }) => hits);
  }

  /**
   * Restores the hit counts that a caller saved before it executed typed lines. Called if the lines fail, because the counted hits did not
   * happen.
   * @param {number[]} counts
   */
  restoreCounts(counts) {
    this.breakpoints.forEach((breakpoint, index) => {
      breakpoint.hits = counts[index];
    });
  }

  /**
   * Adds new hits to the hit counts after the session has run the lines.
   * @param {BreakpointEvents} events the result of `searchLines` for these lines
   */
  countHits({ hits }) {
    for (const breakpoint of this.breakpoints) breakpoint.hits += hits.get(breakpoint.id) || 0;
  }
}
