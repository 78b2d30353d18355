// Converts a condition such as `acc > 3` to comparisons of the prover's cells. Evaluates the condition for all values of the fields
// (registers, ports, RAM nibbles ..) that the condition reads. When the condition reads a field that has no value yet, evaluates the
// condition again for each possible value of this field.

import { SECOND_CYCLE_FIELD, findField, outputLineField } from "./cells.js";
import { indices } from "../bench/numbers.js";
import * as say from "../../words/prove.js";

/**
 * @typedef {import("./cells.js").Comparisons} Comparisons
 * @typedef {import("./cells.js").Field} Field
 * @typedef {import("../bench/answers.js").Board} Board
 * @typedef {import("../conditions/condition_language.js").Condition} Condition
 *
 * The result of a condition. It is a boolean if the result is the same for all values of all fields. Otherwise, it is a field, with the
 * result for each range of the field's values. A range combines consecutive values with the same result.
 * @typedef {boolean | { field: Field, ranges: { low: number, high: number, result: Result }[] }} Result
 */

/** The maximum number of field values that the evaluations of one condition can read in total. */
const MAX_READS = 500000;
/** The maximum number of conjunctions (lists of comparisons that must all be true) that one condition can need. */
const MAX_COMPARISON_LISTS = 4000;

/** The error that is thrown for a property or a condition that the prover does not support. */
export class UnsupportedQuestion extends Error {}

/** The error that is thrown when a condition reads a field that has no value in the current evaluation. */
class UndecidedField extends Error {
  /** @param {Field} field */
  constructor(field) {
    super("");
    this.field = field;
  }
}

/** Returns whether two results are equal. */
function areResultsEqual(/** @type {Result} */ one, /** @type {Result} */ other) {
  return typeof one === "boolean" ? one === other : JSON.stringify(one) === JSON.stringify(other);
}

/** The evaluation of one condition for all values of its fields. */
class Evaluation {
  /**
   * @param {Condition} condition
   * @param {Board} board
   * @param {boolean} ignoresSecondCycle
   */
  constructor(condition, board, ignoresSecondCycle) {
    this.condition = condition;
    this.board = board;
    this.readCount = 0;
    /** @type {Map<string, string>} the values of the fields in the current evaluation, by field name */
    this.fieldTexts = new Map();
    const input = (/** @type {string} */ name) => this.readField(null, name);
    const owed = () => (ignoresSecondCycle ? "0" : this.readField(SECOND_CYCLE_FIELD, SECOND_CYCLE_FIELD.name));
    this.extraValues = {
      get test() {
        return input("TEST");
      },
      get owed() {
        return owed();
      },
      get keys() {
        return input("keys");
      },
      cycles: 0, lampForecast: [], printed: [],
    };
  }

  /**
   * Returns the value of a field as text. Throws UndecidedField if the field has no value. Throws UnsupportedQuestion if the condition
   * reads an input or too many values.
   * @param {Field | null} field null if the place is an input
   * @param {string} name
   */
  readField(field, name) {
    if (!field) throw new UnsupportedQuestion(say.dependsOnInput(name));
    this.readCount += 1;
    if (this.readCount > MAX_READS) throw new UnsupportedQuestion(say.USES_TOO_MANY_PLACES);
    const text = this.fieldTexts.get(field.name);
    if (text === undefined) throw new UndecidedField(field);
    return text;
  }

  /**
   * Returns an object that behaves like a string with one character for each output line, such as the value of `lamps`. It reads an output
   * line only when the character of this line is used.
   * @param {string[]} lines the names of the output lines
   * @param {[string, string]} marks the characters for 0 and 1
   */
  createLineText(lines, marks) {
    const readMark = (/** @type {number} */ index) => {
      const text = this.readField(outputLineField(lines[index], this.board), lines[index]);
      return marks[Number(text)];
    };
    const iterateMarks = function* readMarks() {
      for (const at of lines.keys()) yield readMark(at);
    };
    return new Proxy({}, {
      get: (_, key) => {
        if (key === Symbol.iterator) return iterateMarks;
        if (key === "length") return lines.length;
        if (key === "charCodeAt") return (/** @type {number} */ at) => (at < lines.length ? readMark(at).charCodeAt(0) : NaN);
        return typeof key === "string" && /^\d+$/.test(key) && Number(key) < lines.length ? readMark(Number(key)) : undefined;
      },
    });
  }

  /**
   * Returns the value of a place as text.
   * @param {string} place a name in a condition, such as `acc` or `lamps`
   */
  readPlace(place) {
    const { board } = this;
    if (place === "lamps") return board.lamps.length === 0 ? "-" : this.createLineText(board.lamps, [".", "*"]);
    const [, chain] = /^chain(\d)$/.exec(place) || [];
    if (chain) return this.createLineText(indices(10 * board.chains[Number(chain)].chips).map((bit) => `chain${chain}.${bit}`), ["0", "1"]);
    return this.readField(findField(place, board), place);
  }

  /** Evaluates the condition with the current values of the fields. */
  evaluateOnce() {
    const { condition: { places, holds } } = this;
    const values = new Proxy(/** @type {string[]} */ ([]), {
      get: (_, key) => (typeof key === "string" && key in places ? this.readPlace(places[Number(key)]) : undefined),
    });
    return holds(values, this.extraValues);
  }

  /**
   * Evaluates the condition for all values of those fields that have no value yet.
   * @returns {Result}
   */
  evaluate() {
    try {
      return this.evaluateOnce();
    } catch (error) {
      if (!(error instanceof UndecidedField)) throw error;
      return this.evaluateForEachValue(error.field);
    }
  }

  /**
   * Evaluates the condition for each value of a field. Throws UnsupportedQuestion if the result also depends on an input.
   * @param {Field} field
   * @returns {Result}
   */
  evaluateForEachValue(field) {
    /** @type {{ low: number, high: number, result: Result }[]} */
    const ranges = [];
    for (const number of indices(field.count)) {
      const texts = field.texts(number);
      const [result, ...otherResults] = texts.map((text) => {
        this.fieldTexts.set(field.name, text);
        return this.evaluate();
      });
      if (otherResults.some((other) => !areResultsEqual(result, other))) throw new UnsupportedQuestion(say.dependsOnInput(field.name));
      const last = ranges[ranges.length - 1];
      if (result === undefined) continue;
      if (last && last.high === number - 1 && areResultsEqual(last.result, result)) last.high = number;
      else ranges.push({ low: number, high: number, result });
    }
    this.fieldTexts.delete(field.name);
    return ranges.length === 1 ? ranges[0].result : { field, ranges };
  }
}

/**
 * Converts a result to a list of conjunctions. At least one conjunction is true if and only if the condition has the wanted result.
 * @param {Result} result
 * @param {boolean} wantedResult
 * @returns {Comparisons[]}
 */
function toComparisonLists(result, wantedResult) {
  if (typeof result === "boolean") return result === wantedResult ? [[]] : [];
  const { field } = result;
  const lists = result.ranges.flatMap(({ low, high, result: nextResult }) => {
    const nextLists = toComparisonLists(nextResult, wantedResult);
    if (nextLists.length === 0) return [];
    return field.between(low, high).flatMap((fieldComparisons) => (
      nextLists.map((nextComparisons) => [...fieldComparisons, ...nextComparisons])));
  });
  if (lists.length > MAX_COMPARISON_LISTS) throw new UnsupportedQuestion(say.USES_TOO_MANY_PLACES);
  return lists;
}

/**
 * Converts a condition to a list of conjunctions. At least one conjunction is true if and only if the condition has the wanted result.
 * Throws UnsupportedQuestion if the condition depends on inputs or reads too many values.
 * @param {Condition} condition
 * @param {boolean} wantedResult
 * @param {Board} board
 * @param {boolean} [ignoresSecondCycle] if true, the condition is evaluated as if no second cycle were pending
 */
export function listComparisons(condition, wantedResult, board, ignoresSecondCycle = false) {
  return toComparisonLists(new Evaluation(condition, board, ignoresSecondCycle).evaluate(), wantedResult);
}
