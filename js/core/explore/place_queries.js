// Queries the values of `trace` places, at most 16 per query, and evaluates the conditions of properties on these values.

import { MAX_PLACES } from "../bench/inputs.js";
import { parseRefusal } from "../bench/answers.js";
import { ForecastAnswers, parseTraceLine, rowValues } from "../engine/forecast_answers.js";

/** @typedef {import("./properties.js").Property} Property */

export class PlaceQueries {
  /** @param {string[]} names */
  constructor(names) {
    this.names = [...new Set(names)];
    /** The groups of `trace` places, one group per query. */
    this.groups = [];
    for (let from = 0; from < this.names.length; from += MAX_PLACES) this.groups.push(this.names.slice(from, from + MAX_PLACES));
  }

  /**
   * Returns the `trace` lines that query the places for the next cycles.
   * @param {number} cycles
   */
  formatLines(cycles) {
    return this.groups.map((group) => `trace ${cycles} ${group.join(" ")}\n`).join("");
  }

  /**
   * Returns the indices of the given places in the list of all places.
   * @param {string[]} places
   */
  findIndexes(places) {
    return places.map((place) => this.names.indexOf(place));
  }
}

/**
 * Returns all conditions of a property: the condition in its line, followed by the conditions of its guards. An element is null if the
 * property or the guard has no condition.
 * @param {Property} property
 */
export function listConditions({ condition, guards }) {
  return [condition, ...guards.map((guard) => guard.condition)];
}

/** @type {boolean[]} the values of the guard conditions of a property without guards */
const NO_GUARDS = [];

/** The conditions of a property, each with the indices of its `trace` places in the list of all places. */
export class Conditions {
  /**
   * @param {Property} property
   * @param {{ findIndexes: (places: string[]) => number[] }} places
   */
  constructor(property, places) {
    const [ownCondition, ...guards] = listConditions(property).map((condition) => (
      { condition, indexes: condition ? places.findIndexes(condition.places) : [] }));
    this.propertyCondition = ownCondition;
    this.guardConditions = guards;
  }

  /**
   * Returns whether the property's condition is true, regardless of its guards; false if the property has no condition.
   * @param {string[]} values the values of all places
   */
  holds(values) {
    return evaluateCondition(this.propertyCondition, values);
  }

  /**
   * Returns for each guard whether its condition is true.
   * @param {string[]} values
   */
  evaluateGuards(values) {
    return this.guardConditions.length === 0 ? NO_GUARDS : this.guardConditions.map((guard) => evaluateCondition(guard, values));
  }
}

/**
 * Returns whether a condition is true; false if there is no condition.
 * @param {{ condition: import("../conditions/condition_language.js").Condition | null, indexes: number[] }} query
 * @param {string[]} values
 */
function evaluateCondition({ condition, indexes }, values) {
  return condition !== null && condition.holds(indexes.map((at) => values[at]));
}

/** Reads the answers to the queries of `trace` places, one after another. */
export class PlaceAnswers extends ForecastAnswers {
  /**
   * Returns the current values of all `trace` places, separated by blanks. Skips the later changes in the answers.
   * @param {PlaceQueries} places
   */
  takeRow(places) {
    let row = "";
    for (let group = 0; group < places.groups.length; group++) row += this.takeTrace().row;
    return row.slice(1);
  }

  /**
   * Returns the current values of all `trace` places, and the values after each instruction that changes them, with the cycles before the
   * instruction.
   * @param {PlaceQueries} places
   * @returns {{ values: string[], changes: Change[] }}
   */
  takeChanges(places) {
    /** @type {string[]} */
    let values = [];
    /** @type {Change[][]} */
    const changesByGroup = [];
    for (let group = 0; group < places.groups.length; group++) {
      const { row, lines } = this.takeTrace();
      const from = values.length;
      changesByGroup.push(lines.map((line) => parseChange(line, from)));
      values = [...values, ...rowValues(row)];
    }
    if (changesByGroup.length === 1) return { values, changes: changesByGroup[0] };
    return { values, changes: changesByGroup.flat().sort((one, other) => one.cycles - other.cycles) };
  }

  /** Consumes and parses the answer to `count`; returns an empty list if the bench rejected the query. */
  takeCountsIfAny() {
    if (!parseRefusal(this.answers[this.nextIndex])) return this.takeCounts();
    this.skip(1);
    return [];
  }
}

/**
 * An instruction that changes values in a group of `trace` places: the cycles before it, its address, and the new values of the group.
 * `from` is the index of the first new value in the list of the values of all places.
 * @typedef {{ cycles: number, address: number, from: number, values: string[] }} Change
 */

/**
 * Parses a trace line.
 * @param {string} line
 * @param {number} from the index of the line's first value in the list of the values of all places
 * @returns {Change}
 */
function parseChange(line, from) {
  const { cycles, address, row } = parseTraceLine(line);
  return { cycles, address, from, values: rowValues(row) };
}
