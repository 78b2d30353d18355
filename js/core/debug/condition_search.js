// Compiles the goals of searches: a change of a place, or the moment at which a condition becomes true.

import { compileExpression, compileTracedCondition } from "../conditions/condition_language.js";
import { parsePlace } from "../conditions/places.js";
import { rowValues } from "../engine/forecast_answers.js";
import { errorInColumn } from "../../words/conditions.js";
import * as say from "../../words/debug.js";

/**
 * @typedef {import("../conditions/condition_language.js").Names} Names
 * @typedef {{ places: string[], holds: (values: string[]) => boolean }} SearchCondition a compiled condition: `holds`
 *   evaluates the condition for the values of `places`
 */

/**
 * Compiles a condition for a search. `error` is an error message with a column, "" for none. A condition that uses no place is an error,
 * because its value never changes.
 * @param {string} text
 * @param {Names} names
 * @returns {{ searchCondition: SearchCondition | null, error: string }}
 */
export function compileSearchCondition(text, names) {
  const { condition, ...conditionError } = compileTracedCondition(text, names);
  if (!condition) {
    // If the text is not a valid expression either, for example because a name is unknown, the expression's error is more specific.
    const value = compileExpression(text, names);
    const { error, column } = value.expression ? conditionError : value;
    return { searchCondition: null, error: errorInColumn(error, column) };
  }
  return condition.places.length > 0 ? { searchCondition: condition, error: "" } : { searchCondition: null, error: say.READS_NO_PLACE };
}

/**
 * Parses the goal of a search. If the text is a place, the goal is the next change of the place. If the text is a condition, the goal is
 * the moment at which the condition becomes true. `error` is an error message, "" for none.
 * @param {string} text
 * @param {Names} names
 * @returns {{ goal: { kind: "change", place: string } | { kind: "when", condition: string } | null, error: string }}
 */
export function parseGoal(text, names) {
  const lamp = names.face.lampNumbers.get(text.trim()) ?? names.face.lampNumbers.get(text.trim().replace(/ /g, "_"));
  const place = parsePlace(lamp === undefined ? text : `lamp ${lamp}`);
  if (place) return { goal: { kind: "change", place: place.name }, error: "" };
  const { searchCondition, error } = compileSearchCondition(text, names);
  return { goal: searchCondition && { kind: "when", condition: text.trim() }, error };
}

/**
 * Returns whether a condition changes from false to true between two trace rows.
 * @param {SearchCondition} searchCondition
 * @param {string} before the row before the change
 * @param {string} after the row after the change
 */
export function becomesTrue({ holds }, before, after) {
  return holds(rowValues(after)) && !holds(rowValues(before));
}
