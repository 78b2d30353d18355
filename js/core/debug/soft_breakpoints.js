// Compiles the conditions and notes of breakpoints for a board and a program, before the machine runs.

import { compileCondition, compileExpression } from "../conditions/condition_language.js";
import { parsePlace } from "../conditions/places.js";
import { boardLacks, errorInColumn } from "../../words/conditions.js";
import * as say from "../../words/debug.js";

/**
 * @typedef {import("./arrivals.js").SoftBreakpoint} SoftBreakpoint
 * @typedef {import("../conditions/condition_language.js").Names} Names
 *
 * A breakpoint at an address. `condition`: the text of the condition, "" for none. `from`: the number of the first hit that stops the
 * machine; 1 means every hit. `note`: the text to log instead of stopping, with expressions in braces, or "". `hits`: the hit count.
 * @typedef {{ id: number, address: number, condition: string, from: number, note: string, hits: number }} LocatedBreakpoint
 * @typedef {{ places: string[], textOf: (values: string[]) => string }} Note a compiled note: `textOf` returns the text for the values of
 *   `places`
 */

/**
 * Returns whether a breakpoint has a condition or a note, or lets its first hits pass. Such a breakpoint need not stop the machine at
 * every arrival.
 * @param {LocatedBreakpoint} breakpoint
 */
export function isSoft({ condition, from, note }) {
  return condition.trim() !== "" || note.trim() !== "" || from > 1;
}

/**
 * Compiles the text between two braces of a note: a place, a condition, or another expression. The value of a place is spelled as in an
 * answer to `trace`.
 * @param {string} text
 * @param {Names} names
 * @returns {{ note: Note, error: "", column: -1 } | { note: null, error: string, column: number }}
 */
function compileBracedText(text, names) {
  const lamp = names.face.lampNumbers.get(text.trim());
  const place = parsePlace(lamp === undefined ? text : `lamp ${lamp}`);
  const probes = place ? place.probesOn(names.board) : [];
  if (place && probes.length > 0) return { note: { places: probes, textOf: place.textOf }, error: "", column: -1 };
  if (place) return { note: null, error: boardLacks(place.name), column: 0 };
  const { expression, error, column } = compileExpression(text, names);
  return expression ? { note: { places: expression.places, textOf: expression.textOf }, error: "", column: -1 }
    : { note: null, error, column };
}

/**
 * Compiles a note such as `digit {r4}, lamps {lamps}, next {r4 + 1}`. In the logged text, values replace the braces. `error` is an error
 * message with the column in the note, "" for none.
 * @param {string} text
 * @param {Names} names
 * @returns {{ note: Note, error: string }}
 */
export function compileNote(text, names) {
  /** @type {string[]} */
  const places = [];
  let error = "";
  let start = text.length - text.trimStart().length;
  const pieces = text.trim().split(/(\{[^{}]*\})/).map((piece) => {
    const pieceStart = start;
    start += piece.length;
    const match = /^\{(.*)\}$/.exec(piece);
    if (!match) return () => piece;
    const { note, error: bracesError, column } = compileBracedText(match[1], names);
    if (!note) {
      error = error || errorInColumn(say.noteErrorMessage(piece, bracesError), pieceStart + 1 + column);
      return () => piece;
    }
    const from = places.length;
    places.push(...note.places);
    return (/** @type {string[]} */ values) => note.textOf(values.slice(from, from + note.places.length));
  });
  return { note: { places, textOf: (values) => pieces.map((piece) => piece(values)).join("") }, error };
}

/**
 * Compiles a breakpoint. A breakpoint with an error stops the machine at every arrival. `error` is the error message, "" for none.
 * @param {LocatedBreakpoint} breakpoint
 * @param {Names} names
 * @returns {{ softBreakpoint: SoftBreakpoint, error: string }}
 */
export function compileBreakpoint(breakpoint, names) {
  const { id, address, from, hits } = breakpoint;
  const isUnconditional = breakpoint.condition.trim() === "";
  const { condition, error, column } = isUnconditional ? { condition: null, error: "", column: -1 }
    : compileCondition(breakpoint.condition, names);
  const compiledNote = breakpoint.note.trim() === "" ? null : compileNote(breakpoint.note, names);
  const errorMessage = error ? errorInColumn(error, column) : compiledNote ? compiledNote.error : "";
  if (errorMessage) {
    return { softBreakpoint: { id, address, from: 1, hits, places: [], holds: () => true, noteText: null }, error: errorMessage };
  }
  const conditionPlaces = condition ? condition.places : [];
  const note = compiledNote && compiledNote.note;
  const softBreakpoint = {
    id, address, from, hits,
    places: [...conditionPlaces, ...(note ? note.places : [])],
    holds: (/** @type {string[]} */ values) => condition === null || condition.holds(values.slice(0, conditionPlaces.length)),
    noteText: note ? (/** @type {string[]} */ values) => note.textOf(values.slice(conditionPlaces.length)) : null,
  };
  return { softBreakpoint, error: "" };
}
