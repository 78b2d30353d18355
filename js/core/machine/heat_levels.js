// Computes the levels of the heat map, and describes the map. The level of a RAM nibble depends on how often or how recently it has
// changed.

import { hex } from "../bench/numbers.js";
import { addressWithName } from "../../words/stops.js";
import { formatCycles } from "../time/cycles.js";
import * as say from "../../words/machine.js";

/**
 * @typedef {import("../engine/heat_map.js").Heat} Heat
 * @typedef {import("../engine/heat_map.js").HeatCell} HeatCell
 * @typedef {import("./source_map.js").SourceMap} SourceMap
 * @typedef {import("../engine/heat_meter.js").ChipHeat} ChipHeat
 *
 * The kind of a heat map: it shows how often, or how recently, each RAM nibble has changed.
 * @typedef {"often" | "lately"} HeatKind
 */

/** The highest level of a heat map. */
export const MAX_HEAT_LEVEL = 5;
/** The maximum number of intervals for which RecentHeat stores changes separately. */
const MAX_INTERVALS = 50;

/**
 * Maps a number from 1 to `max` to a level from 1 to MAX_HEAT_LEVEL on a logarithmic scale.
 * @param {number} number
 * @param {number} max
 */
function scaleLevel(number, max) {
  return max <= 1 ? MAX_HEAT_LEVEL : 1 + Math.min(MAX_HEAT_LEVEL - 1, Math.floor(MAX_HEAT_LEVEL * Math.log(number) / Math.log(max + 1)));
}

/**
 * Returns the levels of all nibbles that have changed, from 1 to MAX_HEAT_LEVEL, by nibble. The nibble that has changed most often, or most
 * recently, has the highest level.
 * @param {Heat} heat
 * @param {HeatKind} kind
 * @returns {Map<string, number>}
 */
export function heatLevels({ cycles, cells }, kind) {
  const maxCount = Math.max(...cells.map(({ count }) => count));
  const minAge = Math.min(...cells.map(({ cyclesAgo: ago }) => ago));
  return new Map(cells.map(({ place, count, cyclesAgo: ago }) => (
    [place, kind === "often" ? scaleLevel(count, maxCount) : MAX_HEAT_LEVEL + 1 - scaleLevel(1 + ago - minAge, cycles)])));
}

/**
 * The changes of RAM nibbles in the last cycles, collected while the session runs. `changeCycle` is the cycle count at the last change of a
 * nibble.
 */
export class RecentHeat {
  constructor() {
    this.totalCycles = 0;
    /**
     * The intervals, each with the cycle count at its start.
     * @type {{ from: number, cells: Map<string, HeatCell & { changeCycle: number }> }[]}
     */
    this.intervals = [];
  }

  clear() {
    this.totalCycles = 0;
    this.intervals = [];
  }

  /**
   * Adds changes, and removes the intervals that ended more than `storedCycles` cycles ago.
   * @param {ChipHeat} heat
   * @param {number} cycles the number of cycles since the previous call; at full speed, `heat` describes only some of these cycles
   * @param {number} storedCycles the number of cycles to store
   */
  add({ cells }, cycles, storedCycles) {
    const from = this.totalCycles;
    this.totalCycles += cycles;
    if (this.intervals.length === 0 || this.totalCycles - this.intervals[this.intervals.length - 1].from > storedCycles / MAX_INTERVALS) {
      this.intervals.push({ from, cells: new Map() });
    }
    const newChanges = cells.map((cell) => ({ ...cell, changeCycle: this.totalCycles - cell.cyclesAgo }));
    addChanges(this.intervals[this.intervals.length - 1].cells, newChanges);
    while (this.intervals.length > 1 && this.intervals[1].from <= this.totalCycles - storedCycles) this.intervals.shift();
  }

  /** @returns {Heat} the changes in the stored cycles */
  get heat() {
    /** @type {Map<string, HeatCell & { changeCycle: number }>} */
    const changes = new Map();
    for (const { cells } of this.intervals) addChanges(changes, [...cells.values()]);
    const from = this.intervals.length > 0 ? this.intervals[0].from : this.totalCycles;
    const heatCells = [...changes.values()].map(({ changeCycle, ...cell }) => ({ ...cell, cyclesAgo: this.totalCycles - changeCycle }));
    return { cycles: this.totalCycles - from, cells: heatCells };
  }
}

/**
 * Adds newer changes to the changes of each nibble.
 * @param {Map<string, HeatCell & { changeCycle: number }>} changes the changes, by place of the nibble
 * @param {(HeatCell & { changeCycle: number })[]} newChanges
 */
function addChanges(changes, newChanges) {
  for (const cell of newChanges) changes.set(cell.place, { ...cell, count: cell.count + (changes.get(cell.place) || { count: 0 }).count });
}

/**
 * Describes what changed a nibble last: an instruction or a bench line.
 * @param {HeatCell} cell
 * @param {SourceMap | null} map
 */
function describeCause({ address, line }, map) {
  return line ? say.causeLine(line) : addressWithName(hex(address, 3), map);
}

/**
 * Describes what changed a nibble last, and when.
 * @param {HeatCell} cell
 * @param {SourceMap | null} map
 */
function describeLastChange(cell, map) {
  const cause = describeCause(cell, map);
  return cell.cyclesAgo === 0 ? say.causedBy(cause) : say.causedByAgo(cause, formatCycles(cell.cyclesAgo));
}

/**
 * Returns a number of times as text, such as `once`.
 * @param {number} count
 */
function formatOccurrences(count) {
  return count === 1 ? say.ONCE : say.manyTimes(count.toLocaleString("en"));
}

/**
 * Describes the changes of a nibble: `12 times, last by 00B (turn + 9, line 7), 320 cycles, 3.456 ms ago`.
 * @param {HeatCell} cell
 * @param {SourceMap | null} map
 */
export function describeChanges(cell, map) {
  return `${formatOccurrences(cell.count)}${cell.count === 1 ? "" : say.LAST_CHANGE} ${describeLastChange(cell, map)}`;
}

/**
 * Describes the changes of a nibble while the session runs. Omits the time of the last change, because the worker's reports are late and
 * incomplete.
 * @param {HeatCell} cell
 * @param {SourceMap | null} map
 */
export function describeChangesWhileRunning(cell, map) {
  return say.changesSeenRunning(formatOccurrences(cell.count), describeCause(cell, map));
}

/**
 * Returns the status line of the heat map while the session runs.
 * @param {ChipHeat} heat
 * @param {boolean} countsAllCycles true if the worker counts the changes in all cycles, false if only in some of them
 */
export function describeHeatStatus({ chipCount }, countsAllCycles) {
  return say.heatStatus(chipCount, countsAllCycles);
}

/**
 * Returns the summary of a heat map: the period, the number of changed nibbles, the nibble that changed most often, and the nibble that
 * changed last.
 * @param {Heat} heat
 * @param {number} requestedCycles the length of the period for which the user asked
 * @param {(place: string) => string} nameOf returns the name of a nibble
 * @param {SourceMap | null} map
 */
export function describeHeat({ cycles, cells }, requestedCycles, nameOf, map) {
  if (cycles === 0) return say.NOTHING_EARLIER;
  const period = say.inTheLast(formatCycles(cycles), cycles >= requestedCycles);
  if (cells.length === 0) return say.nothingChangedMessage(period);
  const mostChanged = cells.reduce((one, other) => (other.count > one.count ? other : one));
  if (cells.length === 1) return say.oneChangeMessage(period, nameOf(mostChanged.place), describeChanges(mostChanged, map));
  const lastChanged = cells.reduce((one, other) => (other.cyclesAgo < one.cyclesAgo ? other : one));
  const mostFrequentText = say.mostFrequentChange(nameOf(mostChanged.place), formatOccurrences(mostChanged.count));
  return say.manyChangesMessage(period, cells.length, mostFrequentText, nameOf(lastChanged.place), describeLastChange(lastChanged, map));
}
