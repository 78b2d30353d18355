// Parses watch expressions, to which the user can give names: `count = R5`, `digit = ram 0 0x12`, `r5 + 1 > limit`.
//
//     const { watch, error } = parseWatch("digit = ram 0 0x12", names);
//     watch.readPieces(machineState, names)    the current value as pieces (word_values.js)

import { compileExpression } from "../conditions/condition_language.js";
import { KEYWORDS, parseExpression } from "../conditions/parser.js";
import { parsePlace } from "../conditions/places.js";
import { ConditionError, parseNumeral } from "../conditions/scanner.js";
import { errorInColumn } from "../../words/conditions.js";
import { readPlaceValue } from "./snapshot_values.js";
import { NAME } from "../text/assembly.js";
import * as say from "../../words/debug.js";

/**
 * @typedef {import("./machine_state.js").MachineState} MachineState
 * @typedef {import("./word_values.js").Piece} Piece
 * @typedef {import("../conditions/condition_language.js").Names} Names
 *
 * A watch expression. `name` is the name that the user gave, or else the expression. `text` is the saved text. `expression` is the
 * expression without the name. `place` is the name of a RAM or status character, "" for any other expression. `readPieces` returns the
 * current value.
 * @typedef {{ name: string, text: string, place: string, expression: string, readPieces: ValueReader }} WatchExpression
 *
 * A function that returns the value of a watch expression in a machine state, as pieces of text.
 * @typedef {(machineState: MachineState, names: Names) => Piece[]} ValueReader
 */

/** The maximum number of watch expressions, and the maximum length of a watch expression in characters. */
export const MAX_WATCH_EXPRESSIONS = 40;
const MAX_LENGTH = 200;
/** The largest number that is shown only in decimal, without its hexadecimal form. */
const MAX_DECIMAL_ONLY_VALUE = 9;

/**
 * Returns the reader of a place whose value the user can edit.
 * @param {string} place
 * @param {(machineState: MachineState) => string} readValue returns the value in a machine state, "" if the board lacks the place
 * @returns {ValueReader}
 */
function editablePlaceReader(place, readValue) {
  return (machineState) => {
    const text = readValue(machineState);
    return text === "" ? [say.BOARD_LACKS_IT] : [{ place, name: place, value: text }];
  };
}

/**
 * @type {Record<string, (machineState: MachineState) => string>} functions that return the accumulator, the carry or the selected bank, by
 *   place name
 */
const REGISTER_READERS = {
  acc: ({ registers }) => registers.accumulator, cy: ({ registers }) => registers.carry, dcl: ({ registers }) => registers.bank,
};

/**
 * Returns the reader of a register or register pair; null for any other place.
 * @param {string} place
 * @returns {ValueReader | null}
 */
function registerReader(place) {
  if (Object.prototype.hasOwnProperty.call(REGISTER_READERS, place)) return editablePlaceReader(place, REGISTER_READERS[place]);
  const registerMatch = /^r(\d+)$/.exec(place);
  if (registerMatch) return editablePlaceReader(place, (machineState) => machineState.register(Number(registerMatch[1])));
  const pairMatch = /^p(\d)$/.exec(place);
  if (!pairMatch) return null;
  const halves = [0, 1].map((half) => 2 * Number(pairMatch[1]) + half);
  return (machineState) => halves.map((half) => ({ place: `r${half}`, name: `R${half}`, value: machineState.register(half) }));
}

/**
 * Returns the reader of a RAM or status character; null for any other place.
 * @param {string} place
 * @returns {ValueReader | null}
 */
function memoryReader(place) {
  const [kind, ...numberTexts] = place.split(".");
  const [bank, byteOrRegister, statusNumber] = numberTexts.map(Number);
  if (kind === "ram") return editablePlaceReader(place, (machineState) => machineState.character(bank, byteOrRegister));
  return kind === "st" ? editablePlaceReader(place, (machineState) => machineState.status(bank, byteOrRegister, statusNumber)) : null;
}

/**
 * Returns the reader of a port; null for any other place.
 * @param {string} place
 * @returns {ValueReader | null}
 */
function portReader(place) {
  const romMatch = /^rom(\d+)$/.exec(place);
  if (romMatch) {
    return (machineState) => {
      const port = machineState.romPort(Number(romMatch[1]));
      return [port ? say.outAndIn(port.out, port.in) : say.BOARD_LACKS_IT];
    };
  }
  const ramMatch = /^ram(\d)\.(\d)$/.exec(place);
  if (!ramMatch) return null;
  return (machineState) => {
    const output = machineState.ramPort(Number(ramMatch[1]), Number(ramMatch[2]));
    return [output === "" ? say.BOARD_LACKS_IT : `out ${output}`];
  };
}

/**
 * Returns the reader of a place whose value the user cannot edit.
 * @param {import("../conditions/places.js").Place} place
 * @returns {ValueReader}
 */
function readOnlyPlaceReader(place) {
  return (machineState, { board }) => {
    const probes = place.probesOn(board);
    return [probes.length === 0 ? say.BOARD_LACKS_IT : place.textOf(probes.map((probe) => readPlaceValue(probe, machineState, board)))];
  };
}

/**
 * Returns the reader of any other expression, such as a sum, a comparison or a name.
 * @param {string} text
 * @returns {ValueReader}
 */
function expressionReader(text) {
  return (machineState, names) => {
    const { expression, error } = compileExpression(text, names);
    if (!expression) return [error];
    const answers = expression.places.map((place) => readPlaceValue(place, machineState, names.board));
    const number = expression.numberOf ? expression.numberOf(answers) : 0;
    const value = expression.textOf(answers);
    return [number > MAX_DECIMAL_ONLY_VALUE && /^\d+$/.test(value) ? say.withHex(value, number.toString(16).toUpperCase()) : value];
  };
}

/**
 * Splits the text of a watch into its name and its expression. `column` is the index at which the expression starts. `count = R5` has the
 * name `count`. `r5 = 10` is a comparison and has no name.
 * @param {string} text
 */
function splitWatchExpression(text) {
  const [, name, expression] = /^\s*([^\s=<>!&+()-]*)\s*=(?!=)\s*(.*?)\s*$/.exec(text) || [];
  // `x = 5` is a comparison: a watch that names a constant would be useless.
  const isComparison = name === undefined || KEYWORDS.has(name.toLowerCase()) || /^(test|owed)$/i.test(name) || parsePlace(name) !== null
    || !Number.isNaN(parseNumeral(expression));
  if (isComparison) return { name: "", expression: text.trim(), column: text.length - text.trimStart().length };
  return { name, expression, column: text.trimEnd().length - expression.length };
}

/**
 * Returns the error message for an expression, with a column; "" if there is no error. If `names` is null, checks only the syntax.
 * @param {string} text the expression
 * @param {number} startColumn the column at which the expression starts
 * @param {Names | null} names
 */
function expressionError(text, startColumn, names) {
  if (names) {
    const { error, column } = compileExpression(text, names);
    return error && errorInColumn(error, startColumn + column);
  }
  try {
    parseExpression(text);
    return "";
  } catch (error) {
    if (error instanceof ConditionError) return errorInColumn(error.message, startColumn + Math.max(0, error.column));
    throw error;
  }
}

/**
 * Parses a watch expression. `error` is an error message, "" for none.
 * @param {string} text
 * @param {Names | null} [names] the names of the board and the program, if known
 * @returns {{ watch: WatchExpression | null, error: string }}
 */
export function parseWatch(text, names = null) {
  if (text.length > MAX_LENGTH) return { watch: null, error: say.tooLongMessage(MAX_LENGTH) };
  const { name, expression, column } = splitWatchExpression(text);
  if (name !== "" && !NAME.test(name)) return { watch: null, error: say.NAME_SYNTAX };
  if (expression === "") return { watch: null, error: say.EXPRESSION_MISSING };
  const place = parsePlace(expression);
  const error = place ? "" : expressionError(expression, column, names);
  if (error) return { watch: null, error };
  const placeName = place ? place.name : "";
  const readPieces = registerReader(placeName) || portReader(placeName) || memoryReader(placeName)
    || (place ? readOnlyPlaceReader(place) : expressionReader(expression));
  const character = /^(ram|st)\./.test(placeName) ? placeName : "";
  const watchText = name ? `${name} = ${expression}` : expression;
  return { watch: { name: name || expression, text: watchText, place: character, expression, readPieces }, error: "" };
}

/**
 * Parses saved watch expressions, which can be invalid data. `error` is the first error message, "" for none.
 * @param {unknown} texts
 * @returns {{ watches: WatchExpression[], error: string }}
 */
export function parseWatches(texts) {
  if (!Array.isArray(texts)) return { watches: [], error: "" };
  const results = texts.slice(0, MAX_WATCH_EXPRESSIONS).flatMap((text) => (typeof text === "string" ? [parseWatch(text)] : []));
  const failedResult = results.find(({ error }) => error !== "");
  return { watches: results.flatMap(({ watch }) => (watch ? [watch] : [])), error: failedResult ? failedResult.error : "" };
}

/**
 * Returns the names that the user has given to watch expressions, with the expressions. Conditions can use these names.
 * @param {unknown} texts
 * @returns {Map<string, string>}
 */
export function collectWatchNames(texts) {
  return new Map(parseWatches(texts).watches.filter(({ name, text }) => name !== text).map(({ name, expression }) => [name, expression]));
}
