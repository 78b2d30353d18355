// Compiles conditions (docs/MANUAL.md, "Conditions"). Conditions can contain names from the front panel and from the program. A compiled
// condition lists the places (registers, RAM nibbles, ports ..) that it depends on. Its method `holds` returns whether the condition is
// true for given values of these places.
//
//     const { condition, error } = compileCondition("lamp open on and (r9 >= 8 or cy = 1)", { face, board, map });
//     if (condition) .. `trace 1000 ${condition.places.join(" ")}` ..; condition.holds(rowValues(row))
//
// `places` has at most 16 different entries: places that `trace` reports, and members of STATE_PLACES, which `state` reports. The queries
// for these places are in probes.js. The argument of `holds` contains the values of these places, in the same order. `error` is an error
// message, and `column` is the error's column, counted from 0.
//
// There are three functions that compile conditions:
// - compileCondition: the condition of a breakpoint;
// - compileTracedCondition: like compileCondition, but without STATE_PLACES, for callers that use only `trace`;
// - compileTestCondition: a condition in a test line, which can also use cycles, the printout and perceived lamps.

import { MAX_PLACES } from "../bench/inputs.js";
import { compileConditionNode } from "./compiler.js";
import { isCondition, parseExpression, parseCondition } from "./parser.js";
import { ConditionError, fail } from "./scanner.js";
import { Dependencies, STATE_PLACES, compileValue } from "./values.js";
import * as say from "../../words/conditions.js";

/**
 * @typedef {import("../bench/answers.js").Board} Board
 * @typedef {import("../board/face.js").Face} Face
 * @typedef {import("../machine/source_map.js").SourceMap} SourceMap
 * @typedef {import("./parser.js").ConditionNode} ConditionNode
 *
 * The objects that define the names in a condition. `face` is the front panel, `board` is the parsed answer to `board`, and `map` is the
 * source map of the program. `watched` are the watch names with their expressions.
 * @typedef {{ face: Face, board: Board, map: Pick<SourceMap, "names" | "nameOf"> | null, watched?: Map<string, string> }} Names
 *
 * Values that `trace` does not report. `test`, `owed` (1 if a second cycle is pending) and `keys` are strings from the answer to `state`.
 * `cycles` is the number of cycles since the last `mark` line of a test. `lampForecast` is the answer to LAMPS_FORECAST_QUERY, for the
 * perceived lamps. `printed` are the words on the printout.
 * @typedef {{ test: string, owed: string, keys: string, cycles: number, lampForecast: string[], printed: string[] }} ExtraValues
 *
 * A compiled condition. `explain` returns "" if the condition is true, otherwise a message with the actual and the required values.
 * `negation` is the text of the opposite condition. `needs` lists the fields of `ExtraValues` that the condition uses. `address` is the
 * address in a condition `pc = ADDRESS`, otherwise -1.
 * @typedef {{ text: string, negation: string, places: string[], holds: (values: string[], extraValues?: ExtraValues) => boolean,
 *   explain: (values: string[], extraValues?: ExtraValues) => string, needs: string[], address: number }} Condition
 * @typedef {{ condition: Condition, error: "", column: -1 } | { condition: null, error: string, column: number }} ConditionResult
 *
 * A compiled value or condition. `textOf` returns its value as text: the value of a place as `trace` spells it, any other value in decimal,
 * and a condition as `true` or `false`. `numberOf` returns the value as a number; it is null for a condition.
 * @typedef {{ places: string[], textOf: (values: string[]) => string, numberOf: ((values: string[]) => number) | null }} Expression
 * @typedef {{ expression: Expression, error: "", column: -1 } | { expression: null, error: string, column: number }} ExpressionResult
 */

/** @type {ExtraValues} the values that are used if a caller passes none; no second cycle of an instruction is pending */
const DEFAULT_EXTRA_VALUES = { test: "", owed: "0", keys: "", cycles: 0, lampForecast: [], printed: [] };

/** @type {(names: Names) => (name: string) => boolean} returns a function that tests whether a name is a lamp name */
const createLampNameTest = ({ face }) => (/** @type {string} */ name) => face.lampNumbers.has(name);

/** @type {(place: string) => place is "test" | "owed" | "keys"} */
const isStatePlace = (place) => STATE_PLACES.has(place);

/**
 * Throws `ConditionError` if there are more places than one `trace` line can contain.
 * @param {string[]} places
 */
function checkPlaceCount({ length }) {
  if (length > MAX_PLACES) fail(say.tooManyPlacesMessage(length, MAX_PLACES), 0);
}

/**
 * Calls a function that parses and compiles text. Returns the function's result in `result`, or the message and column of the
 * `ConditionError` that the function throws.
 * @template Result
 * @param {() => Result} compile
 * @returns {{ result: Result, error: "", column: -1 } | { result: null, error: string, column: number }}
 */
function resultOrError(compile) {
  try {
    return { result: compile(), error: "", column: -1 };
  } catch (error) {
    if (error instanceof ConditionError) return { result: null, error: error.message, column: Math.max(0, error.column) };
    throw error;
  }
}

/**
 * Calls a function that compiles a condition. Returns the condition, or the message and column of the `ConditionError` that the function
 * throws.
 * @param {() => Condition} compile
 * @returns {ConditionResult}
 */
function conditionOrError(compile) {
  const { result: condition, ...error } = resultOrError(compile);
  return /** @type {ConditionResult} */ ({ condition, ...error });
}

/** @type {(text: string) => string} */
const collapseBlanks = (text) => text.trim().replace(/\s+/g, " ");

/**
 * Returns the text of the opposite condition.
 * @param {ConditionNode} node
 * @param {string} text the text of the condition
 */
function negateText(node, text) {
  if (node.kind === "not" && /^(not\b|!)/i.test(node.text)) return collapseBlanks(node.part.text);
  return node.kind === "or" || node.kind === "and" ? `not (${text})` : `not ${text}`;
}

/**
 * Parses and compiles the text of a condition.
 * @param {string} conditionText
 * @param {Names} names
 * @param {Dependencies} dependencies collects the places that the condition depends on
 * @returns {Pick<Condition, "text" | "negation"> & import("./compiler.js").CompiledCondition}
 */
function compileConditionText(conditionText, names, dependencies) {
  const node = parseCondition(conditionText, createLampNameTest(names));
  const text = collapseBlanks(conditionText);
  return { ...compileConditionNode(node, names, dependencies), text, negation: negateText(node, text) };
}

/**
 * Compiles a breakpoint condition.
 * @param {string} conditionText
 * @param {Names} names
 * @returns {ConditionResult}
 */
export function compileCondition(conditionText, names) {
  return conditionOrError(() => {
    const dependencies = new Dependencies();
    const { text, negation, address, matches, explain } = compileConditionText(conditionText, names, dependencies);
    checkPlaceCount(dependencies.places);
    return {
      text, negation, places: dependencies.places, needs: [], address,
      holds: (values, extraValues = DEFAULT_EXTRA_VALUES) => matches(values, extraValues),
      explain: (values, extraValues = DEFAULT_EXTRA_VALUES) => (matches(values, extraValues) ? "" : explain(values, extraValues, false)),
    };
  });
}

/**
 * Compiles the condition in a test line. `trace` reports its places; the test supplies the values in `needs`.
 * @param {string} conditionText
 * @param {Names} names
 * @returns {ConditionResult}
 */
export function compileTestCondition(conditionText, names) {
  return conditionOrError(() => {
    const dependencies = new Dependencies(true);
    const { text, negation, address, matches, explain } = compileConditionText(conditionText, names, dependencies);
    const { places: allPlaces } = dependencies;
    const statePlaces = allPlaces.filter(isStatePlace);
    const places = allPlaces.filter((place) => !isStatePlace(place));
    checkPlaceCount(places);
    /** @type {(values: string[], extraValues: ExtraValues) => string[]} returns the values of all places, in the order of `allPlaces` */
    const joinAllValues = (values, extraValues) => {
      let index = 0;
      return allPlaces.map((place) => (isStatePlace(place) ? extraValues[place] : values[index++]));
    };
    const selectValues = statePlaces.length === 0 ? (/** @type {string[]} */ values) => values : joinAllValues;
    return {
      text, negation, places, needs: [...dependencies.needs, ...statePlaces], address,
      holds: (values, extraValues = DEFAULT_EXTRA_VALUES) => matches(selectValues(values, extraValues), extraValues),
      explain: (values, extraValues = DEFAULT_EXTRA_VALUES) => {
        const selectedValues = selectValues(values, extraValues);
        return matches(selectedValues, extraValues) ? "" : explain(selectedValues, extraValues, false);
      },
    };
  });
}

/**
 * Compiles a condition in which only the places that `trace` reports are allowed. Any other place is an error.
 * @param {string} text
 * @param {Names} names
 * @returns {ConditionResult}
 */
export function compileTracedCondition(text, names) {
  const result = compileCondition(text, names);
  const statePlace = result.condition ? result.condition.places.find((place) => STATE_PLACES.has(place)) : undefined;
  return statePlace === undefined ? result : { condition: null, error: say.noTraceShowsMessage(statePlace), column: 0 };
}

/**
 * Compiles a value or a condition.
 * @param {string} text
 * @param {Names} names
 * @returns {ExpressionResult}
 */
export function compileExpression(text, names) {
  const { result: expression, ...error } = resultOrError(() => {
    const dependencies = new Dependencies();
    const node = parseExpression(text, createLampNameTest(names));
    if (isCondition(node)) {
      const { matches } = compileConditionNode(node, names, dependencies);
      checkPlaceCount(dependencies.places);
      const formatTruth = (/** @type {string[]} */ values) => String(matches(values, DEFAULT_EXTRA_VALUES));
      return { places: dependencies.places, numberOf: null, textOf: formatTruth };
    }
    const { read, textOf } = compileValue(node, names, dependencies);
    checkPlaceCount(dependencies.places);
    return { places: dependencies.places, numberOf: read, textOf: textOf || ((/** @type {string[]} */ values) => String(read(values))) };
  });
  return /** @type {ExpressionResult} */ ({ expression, ...error });
}
