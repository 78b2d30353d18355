// Creates the heat map: the number of recent changes of each RAM nibble, and the time and cause of the last change. A copy of the session
// replays the past in units (see replay_units.js), and the bench forecasts the changes in each unit. Writing the same value again is not a
// change.

import { CancelledError } from "../bench/bench_errors.js";
import { hex, indices } from "../bench/numbers.js";
import { NIBBLES_PER_REGISTER, STATUS_CHARACTERS_PER_REGISTER } from "../conditions/places.js";
import { reportChanges } from "./past_changes.js";
import { FIRST_PIECE_CYCLES, SEARCH_PIECE_CYCLES, SEARCH_PIECE_UNITS } from "./piece_size.js";
import { rowValues } from "./forecast_answers.js";
import { sumCycles, splitIntoPieces, splitUnits, unitsBetween } from "./replay_units.js";

/**
 * @typedef {import("../bench/answers.js").Board} Board
 * @typedef {import("./engine_host.js").EngineHost} Engine
 * @typedef {import("./past_changes.js").PastChange} PastChange
 * @typedef {import("./timeline.js").ShouldContinue} ShouldContinue
 * @typedef {import("./timeline.js").Moment} Moment
 * @typedef {import("./timeline.js").Timeline} Timeline
 * @typedef {import("./replay_units.js").Unit} Unit
 *
 * A RAM nibble that has changed: its name in `poke` commands, and its number of changes. `cyclesAgo` is the number of cycles since its last
 * change, and `address` is the address of the instruction that made this change. If a command made this change, `address` is -1 and `line`
 * is the command.
 * @typedef {{ place: string, count: number, cyclesAgo: number, address: number, line: string }} HeatCell
 *
 * The changes in the last `cycles` cycles. This number is smaller than requested if the past is shorter.
 * @typedef {{ cycles: number, cells: HeatCell[] }} Heat
 */

const REGISTERS_PER_CHIP = 4;
/**
 * The number of `trace` queries for one RAM chip: one for the nibbles of each register, and one for the status characters of all its
 * registers.
 */
export const GROUPS_PER_CHIP = REGISTERS_PER_CHIP + 1;

/**
 * Returns the names of all RAM nibbles on a board, in groups. One `trace` query can report a group.
 * @param {Board} board
 */
export function listNibbleGroups({ banks }) {
  return banks.flatMap(({ bank, chips }) => indices(chips).flatMap((chip) => [
    ...indices(REGISTERS_PER_CHIP).map((register) => {
      const first = (chip * REGISTERS_PER_CHIP + register) * NIBBLES_PER_REGISTER;
      return indices(NIBBLES_PER_REGISTER).map((index) => `ram.${bank}.0x${hex(first + index, 2)}`);
    }),
    indices(REGISTERS_PER_CHIP).flatMap((register) => (
      indices(STATUS_CHARACTERS_PER_REGISTER).map((index) => `st.${bank}.${chip * REGISTERS_PER_CHIP + register}.${index}`))),
  ]));
}

/**
 * Returns the moment that is `cycles` cycles ago, or the start of the past if the past is shorter.
 * @param {Timeline} timeline
 * @param {number} cycles
 * @returns {Moment}
 */
function findStart(timeline, cycles) {
  const moment = timeline.momentBefore(cycles);
  if (moment) return moment;
  let { segment } = timeline.presentMoment;
  while (timeline.segments[segment].follows) segment -= 1;
  return { segment, entry: 0, cycles: 0 };
}

/** Counts the changes of each RAM nibble. */
export class ChangeCounter {
  /** @param {string[][]} groups the names of the RAM nibbles, in groups; one `trace` query reports a group */
  constructor(groups) {
    this.groups = groups;
    /** The number of cycles in which changes have been counted so far. */
    this.cycles = 0;
    /** @type {Map<string, HeatCell & { changeTime: number }>} the changed nibbles by name; `changeTime` is the cycle of the last change */
    this.cells = new Map();
  }

  /**
   * For each nibble of the group, counts a change if the nibble has a new value.
   * @param {Omit<PastChange, "unit">} change
   * @param {number} unitStart the number of counted cycles before the unit that contains the change
   */
  add({ group, before, after, cycles, address, line }, unitStart) {
    const oldValues = rowValues(before);
    rowValues(after).forEach((value, index) => {
      if (value === oldValues[index]) return;
      const place = this.groups[group][index];
      const { count } = this.cells.get(place) || { count: 0 };
      this.cells.set(place, { place, count: count + 1, cyclesAgo: 0, changeTime: unitStart + cycles, address, line });
    });
  }

  /**
   * Replays units on a session file, and counts the changes of RAM nibbles in them.
   * @param {Engine} engine
   * @param {Uint8Array} file
   * @param {Unit[]} units
   */
  countChanges(engine, file, units) {
    /** @type {Map<Unit, number>} the number of counted cycles before each unit */
    const unitStarts = new Map();
    for (const unit of units) {
      unitStarts.set(unit, this.cycles);
      this.cycles += unit.cycles;
    }
    reportChanges(engine, file, units, this.groups, (change) => this.add(change, unitStarts.get(change.unit) || 0));
  }

  /** @returns {Heat} the changes counted so far */
  get heat() {
    const cells = [...this.cells.values()].map(({ changeTime, ...cell }) => ({ ...cell, cyclesAgo: this.cycles - changeTime }));
    return { cycles: this.cycles, cells };
  }
}

/**
 * Resolves to the heat map for the last `cycles` cycles. Throws CancelledError if `shouldContinue` resolves to false.
 * @param {Engine} engine
 * @param {Timeline} timeline
 * @param {Board} board
 * @param {number} cycles
 * @param {ShouldContinue} shouldContinue
 * @returns {Promise<Heat>}
 */
export async function measureHeat(engine, timeline, board, cycles, shouldContinue) {
  const groups = listNibbleGroups(board);
  const changeCounter = new ChangeCounter(groups);
  if (groups.length === 0) return changeCounter.heat;
  const maxCycles = Math.max(FIRST_PIECE_CYCLES, Math.floor(SEARCH_PIECE_CYCLES / groups.length));
  const { presentMoment } = timeline;
  let from = findStart(timeline, cycles);
  for (; from.segment <= presentMoment.segment; from = { segment: from.segment + 1, entry: 0, cycles: 0 }) {
    const { entries } = timeline.segments[from.segment];
    const to = from.segment === presentMoment.segment ? presentMoment : { segment: from.segment, entry: entries.length, cycles: 0 };
    const { file } = await timeline.sessionAt(engine, from, shouldContinue);
    for (const units of splitIntoPieces(splitUnits(unitsBetween(timeline, from, to), maxCycles), maxCycles, SEARCH_PIECE_UNITS)) {
      changeCounter.countChanges(engine, file, units);
      if (!(await shouldContinue(sumCycles(units)))) throw new CancelledError();
    }
  }
  return changeCounter.heat;
}
