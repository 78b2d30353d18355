// Finds the changes of watched places. A data watch stops the machine when its place changes. The place is a register, a port, the lamps,
// or a chain. It can also be a RAM character that the bench itself does not watch, for example because the watch has a condition. Before
// the session runs, queries predict the changes. The session file contains no data watch.

import { readBoard } from "../bench/answers.js";
import { MAX_PLACES } from "../bench/inputs.js";
import { compileTracedCondition } from "../conditions/condition_language.js";
import { parsePlace } from "../conditions/places.js";
import { LastChangeFinder } from "../engine/past_search.js";
import { instructionCycles } from "../engine/rom_codes.js";
import { ForecastAnswers, parseTraceLine, rowValues } from "../engine/forecast_answers.js";
import { plannedCycles, truncateLines } from "./goal_search.js";
import { boardLacks, errorInColumn, tooManyPlacesMessage } from "../../words/conditions.js";
import { changedFrom, PC_ALWAYS_CHANGES } from "../../words/debug.js";

/**
 * @typedef {import("../conditions/condition_language.js").Condition} Condition
 * @typedef {import("../conditions/condition_language.js").Names} Names
 * @typedef {import("../conditions/places.js").Place} Place
 * @typedef {import("../engine/engine_host.js").EngineHost} Engine
 * @typedef {import("../engine/key_queue.js").PlannedLine} PlannedLine
 *
 * A watch as requested. `name`: the name of the place. `condition`: the condition that must be true for a change to count, "" for none.
 * `from`: the number of the first change that stops the machine, among those that count.
 * @typedef {{ id: number, name: string, condition: string, from: number }} RequestedWatch
 *
 * A compiled watch. `probes`: the `trace` places that report the value. `changeCount`: the number of changes that have counted so far.
 * @typedef {{ id: number, place: Place, probes: string[], condition: Condition | null, from: number,
 *   changeCount: number }} DataWatch
 *
 * The first change that stops the machine. `cycles`: the cycles before the change, -1 for no change. `id`: the id of the watch. `change`: a
 * description of the change. `changes`: for each watch id, the number of changes that count.
 * @typedef {{ cycles: number, id: number, change: string, changes: Map<number, number> }} WatchEvents
 */

/** The place that cannot be watched: the program counter, because every instruction changes it. */
const UNWATCHABLE_PLACE = "pc";
/** The maximum number of cycles in one query. */
const MAX_QUERY_CYCLES = 50000;

/** @returns {WatchEvents} watch events without a change */
const createEmptyEvents = () => ({ cycles: -1, id: 0, change: "", changes: new Map() });

/**
 * Compiles requested watches. `errors` contains the error messages of watches that cannot be compiled, by watch id.
 * @param {RequestedWatch[]} requestedWatches
 * @param {Names} names
 * @returns {{ watches: DataWatch[], errors: Map<number, string> }}
 */
export function compileWatches(requestedWatches, names) {
  /** @type {Map<number, string>} */
  const errors = new Map();
  const places = new Set();
  const watches = requestedWatches.flatMap(({ id, name, condition: text, from }) => {
    const place = parsePlace(name);
    const probes = place ? place.probesOn(names.board) : [];
    const isUnconditional = text.trim() === "";
    const { condition, error, column } = isUnconditional ? { condition: null, error: "", column: -1 } : compileTracedCondition(text, names);
    const allPlaces = new Set([...places, ...probes, ...(condition ? condition.places : [])]);
    const placeError = !place || probes.length === 0 ? boardLacks(name)
      : name === UNWATCHABLE_PLACE ? PC_ALWAYS_CHANGES : error && errorInColumn(error, column);
    const message = placeError || (allPlaces.size > MAX_PLACES ? tooManyPlacesMessage(allPlaces.size, MAX_PLACES) : "");
    if (message) errors.set(id, message);
    if (message || !place) return [];
    for (const usedPlace of allPlaces) places.add(usedPlace);
    return [{ id, place, probes, condition, from, changeCount: 0 }];
  });
  return { watches, errors };
}

/** Finds the changes of the watched places in the next lines. */
export class DataWatches {
  /** @param {DataWatch[]} watches the watches; together they use at most MAX_PLACES places */
  constructor(watches) {
    this.watches = watches;
    this.places = [...new Set(watches.flatMap(({ probes, condition }) => [...probes, ...(condition ? condition.places : [])]))];
    /** For each watch id, the columns of a trace row with the values for the watched place, and those for the condition. */
    this.columns = new Map(watches.map(({ id, probes, condition }) => (
      [id, [probes, condition ? condition.places : []].map((places) => places.map((place) => this.places.indexOf(place)))])));
  }

  get isEmpty() {
    return this.watches.length === 0;
  }

  /**
   * Searches the next lines for changes, up to the first change that stops the machine.
   * @param {Engine} engine
   * @param {Uint8Array} file the session file; not changed
   * @param {PlannedLine[]} plannedLines
   * @param {() => Uint8Array} readCodes returns the contents of ROM
   * @returns {WatchEvents}
   */
  searchLines(engine, file, plannedLines, readCodes) {
    const events = createEmptyEvents();
    if (this.isEmpty) return events;
    const copy = file.slice();
    let doneCycles = 0;
    for (const { line, change, cycles } of plannedLines.flatMap(splitRunLine)) {
      const query = change ? "" : `trace ${cycles} ${this.places.join(" ")}\n`;
      const answers = new ForecastAnswers(engine.serve(copy, `${query}${line}\n`, copy).answers);
      if (change) continue;
      const trace = answers.takeTrace();
      const run = answers.takeRun();
      const stop = this.findStop(trace.row, trace.lines, events);
      if (stop) {
        events.cycles = doneCycles + Math.min(run.cycles, stop.cycles + instructionCycles(readCodes()[stop.address]));
        return events;
      }
      if (run.end !== "end") return events;
      doneCycles += run.cycles;
    }
    return events;
  }

  /**
   * Returns the first instruction whose change stops the machine: its address, and the cycles before it. Returns null if there is none.
   * @param {string} row the values before the run
   * @param {string[]} lines the trace lines
   * @param {WatchEvents} events receives the counts, and the change that stops the machine
   */
  findStop(row, lines, events) {
    let valuesBefore = rowValues(row);
    for (const line of lines) {
      const { cycles, address, row: rowAfter } = parseTraceLine(line);
      const valuesAfter = rowValues(rowAfter);
      const stoppingWatches = this.watches.filter((watch) => this.countChange(watch, valuesBefore, valuesAfter, events));
      if (stoppingWatches.length > 0) {
        const [{ id, place }] = stoppingWatches;
        const [from, to] = [valuesBefore, valuesAfter].map((values) => this.formatValue(stoppingWatches[0], values));
        Object.assign(events, { id, change: changedFrom(place.name, from, to) });
        return { cycles, address };
      }
      valuesBefore = valuesAfter;
    }
    return null;
  }

  /**
   * Counts a change of a watched place. Returns whether the change stops the machine.
   * @param {DataWatch} watch
   * @param {string[]} before the values of all places before an instruction
   * @param {string[]} after the values of all places after the instruction
   * @param {WatchEvents} events receives the count
   */
  countChange(watch, before, after, { changes }) {
    if (!this.isCountedChange(watch, before, after)) return false;
    const count = (changes.get(watch.id) || 0) + 1;
    changes.set(watch.id, count);
    return watch.changeCount + count >= watch.from;
  }

  /**
   * Returns whether a change of a watched place counts: the value of the place differs, and the condition is true after the change.
   * @param {DataWatch} watch
   * @param {string[]} before the values of all places before an instruction
   * @param {string[]} after the values of all places after the instruction
   */
  isCountedChange({ id, condition }, before, after) {
    const [placeColumns, conditionColumns] = this.columns.get(id) || [[], []];
    if (placeColumns.every((column) => before[column] === after[column])) return false;
    return condition === null || condition.holds(conditionColumns.map((column) => after[column]));
  }

  /**
   * Returns the value of a watched place as text.
   * @param {DataWatch} watch
   * @param {string[]} values the values of all places
   */
  formatValue({ id, place }, values) {
    const [placeColumns] = this.columns.get(id) || [[]];
    return place.textOf(placeColumns.map((column) => values[column]));
  }

  /**
   * Adds the new changes to the counts, after the session has run the lines.
   * @param {Map<number, number>} changes the number of new changes, by watch id
   */
  addChangeCounts(changes) {
    for (const watch of this.watches) watch.changeCount += changes.get(watch.id) || 0;
  }

  /**
   * Returns a finder for each watch. A finder searches the past for the last change of its watched place; it ignores hit counts.
   * @param {Engine} engine
   */
  createFinders(engine) {
    return this.watches.map((watch) => new LastWatchedChangeFinder(engine, watch));
  }
}

/** Finds the last change of a watched place. */
class LastWatchedChangeFinder extends LastChangeFinder {
  /**
   * @param {Engine} engine
   * @param {DataWatch} watch
   */
  constructor(engine, watch) {
    const watches = new DataWatches([watch]);
    super(engine, watch.place, watches.places);
    this.watch = watch;
    this.watches = watches;
  }

  /**
   * Returns the change between two trace rows; null if nothing changes or the condition is false.
   * @param {string} before
   * @param {string} after
   */
  changeBetween(before, after) {
    const { watch, watches } = this;
    const [from, to] = [before, after].map(rowValues);
    if (!watches.isCountedChange(watch, from, to)) return null;
    return { place: watch.place.name, from: watches.formatValue(watch, from), to: watches.formatValue(watch, to), id: watch.id };
  }
}

/**
 * Splits a `run` line into shorter `run` lines of at most MAX_QUERY_CYCLES cycles. Returns a key change unchanged, with 0 cycles.
 * @param {PlannedLine} plannedLine
 */
function splitRunLine(plannedLine) {
  const total = plannedCycles(plannedLine);
  /** @type {(PlannedLine & { cycles: number })[]} */
  const shortLines = plannedLine.change ? [{ ...plannedLine, cycles: 0 }] : [];
  for (let doneCycles = 0; doneCycles < total; doneCycles += MAX_QUERY_CYCLES) {
    const cycles = Math.min(MAX_QUERY_CYCLES, total - doneCycles);
    shortLines.push({ line: `run ${cycles}`, change: null, cycles });
  }
  return shortLines;
}

/**
 * Finds, in advance, the stops at soft breakpoints (arrivals.js) and at data watches. The earliest stop ends the run.
 */
export class SoftStopFinder {
  /**
   * @param {import("./arrivals.js").Arrivals} arrivals
   * @param {DataWatches} dataWatches
   * @param {() => Uint8Array} readCodes returns the contents of ROM
   */
  constructor(arrivals, dataWatches, readCodes) {
    this.arrivals = arrivals;
    this.dataWatches = dataWatches;
    this.readCodes = readCodes;
  }

  get isEmpty() {
    return this.arrivals.isEmpty && this.dataWatches.isEmpty;
  }

  /**
   * Searches the next lines, up to the first stop.
   * @param {Engine} engine
   * @param {Uint8Array} file the session file; not changed
   * @param {PlannedLine[]} plannedLines
   * @returns {import("./arrivals.js").BreakpointEvents}
   */
  searchLines(engine, file, plannedLines) {
    const events = this.arrivals.searchLines(engine, file, plannedLines);
    if (this.dataWatches.isEmpty) return events;
    const limitedLines = events.cycles >= 0 ? truncateLines(plannedLines, events.cycles) : plannedLines;
    const { changes, ...watchStop } = this.dataWatches.searchLines(engine, file, limitedLines, this.readCodes);
    if (watchStop.cycles < 0 || watchStop.cycles === events.cycles) return { ...events, changes };
    const earlierEvents = this.arrivals.searchLines(engine, file, truncateLines(plannedLines, watchStop.cycles));
    return { ...earlierEvents, ...watchStop, reason: "watch", changes };
  }

  /**
   * Adds the new hits and changes to the counts, after the session has run the lines.
   * @param {import("./arrivals.js").BreakpointEvents} events the result of `searchLines` for these lines
   */
  countEvents(events) {
    this.arrivals.countHits(events);
    this.dataWatches.addChangeCounts(events.changes);
  }

  /** The hit counts of the breakpoints, followed by the change counts of the watches. */
  get counts() {
    return [...this.arrivals.counts, ...this.dataWatches.watches.map(({ changeCount }) => changeCount)];
  }

  /**
   * Restores the counts that a caller saved before it executed typed lines. Called if the lines fail, because the counted events did not
   * happen.
   * @param {number[]} counts
   */
  restoreCounts(counts) {
    const { length } = this.arrivals.counts;
    this.arrivals.restoreCounts(counts.slice(0, length));
    this.dataWatches.watches.forEach((watch, index) => {
      watch.changeCount = counts[length + index];
    });
  }
}

/**
 * Returns the place with the given name, if this place can be watched on the board; otherwise null. All `trace` places except the program
 * counter can be watched.
 * @param {string} name
 * @param {string[]} board the answer to `board`
 */
export function watchablePlace(name, board) {
  const place = parsePlace(name);
  return place && place.name !== UNWATCHABLE_PLACE && place.probesOn(readBoard(board)).length > 0 ? place : null;
}
