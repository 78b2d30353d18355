// Sets a place of the machine: TEST, a register pair, a key, or any place that the bench line `poke` accepts.

import { parseRefusal } from "../bench/answers.js";
import { compileExpression } from "../conditions/condition_language.js";
import { maxPlaceValue } from "../conditions/places.js";
import { ConditionError } from "../conditions/scanner.js";
import { settingLines, settablePlaceName, parseSetting } from "../conditions/set_command.js";
import { parseKey, keyLine, formatKey } from "../board/key_place.js";
import { AdapterError } from "./dap_protocol.js";
import * as say from "../../words/adapter.js";
import { listNamedKeys } from "../testing/test_text.js";
import { cannotBeSetMessage, errorInColumn } from "../../words/conditions.js";

/** @typedef {import("../debug/debug_session.js").DebugSession} DebugSession */

/**
 * Returns the current value of an expression as a number; throws AdapterError if its value is not a number.
 * @param {string} text a numeral, a name from the program, a place or a sum
 * @param {DebugSession} session
 * @param {number} [startColumn] the column in the typed line at which the text starts
 */
export function evaluateNumber(text, session, startColumn = 0) {
  // A client can send a displayed value with its suffix, such as `0x012, line 9`.
  const valueText = text.trim().replace(/^(\w+),.*$/, "$1");
  if (valueText === "") throw new AdapterError(say.notANumberMessage(say.NOTHING));
  const { expression, error, column } = compileExpression(valueText, session.names);
  if (!expression) throw new AdapterError(errorInColumn(error, startColumn + column));
  if (!expression.numberOf) throw new AdapterError(say.notANumberMessage(valueText));
  return expression.numberOf(session.debugger.readPlaces(expression.places));
}

/**
 * Returns the bench lines that set a place to the value of an expression. Throws AdapterError if the expression has an error, or if the
 * place cannot have this value.
 * @param {string} place a place from `findSettablePlace`, or a key in the form `key 0 2`
 * @param {string} text the value as an expression
 * @param {DebugSession} session
 * @param {number} [startColumn] the column in the typed line at which the text starts
 */
function assignmentLines(place, text, session, startColumn = 0) {
  const key = place.startsWith("key ") ? parseKey(place.slice("key ".length)) : null;
  if (key) {
    const word = text.trim().toLowerCase();
    if (word !== say.DOWN && word !== say.UP) throw new AdapterError(say.KEY_VALUE_SYNTAX);
    return `${keyLine(word === say.DOWN ? "press" : "release", key)}\n`;
  }
  const value = evaluateNumber(text, session, startColumn);
  if (value < 0 || value > maxPlaceValue(place)) throw new AdapterError(say.valueRangeMessage(place, maxPlaceValue(place)));
  return settingLines(place, value);
}

/**
 * Returns the bench lines for a `set` line; throws AdapterError if the line has an error.
 * @param {string} text the text after `set`, such as `r4 = r5 + 1`
 * @param {DebugSession} session
 */
export function compileSetLine(text, session) {
  try {
    const { place, value } = parseSetting(text);
    return assignmentLines(place, value.text, session, value.column);
  } catch (error) {
    throw error instanceof ConditionError ? new AdapterError(errorInColumn(error.message, Math.max(0, error.column))) : error;
  }
}

/**
 * Returns the place that the text names, in the form that `setPlace` accepts, such as `key 0 2` for a key. Throws AdapterError if the text
 * names no place that can be set.
 * @param {string} text a place of the machine, or `key NAME`
 * @param {import("../board/face.js").Face} face
 * @returns {string}
 */
export function findSettablePlace(text, face) {
  const place = settablePlaceName(text);
  const [, name = ""] = /^key\s+(.+)$/i.exec(text.trim()) || [];
  const namedKey = listNamedKeys(face).get(name);
  if (namedKey) return `key ${formatKey(namedKey.key)}`;
  if (place === "") throw new AdapterError(cannotBeSetMessage(text.trim()));
  return place;
}

/**
 * Sets a place to the value of an expression. Throws AdapterError if the expression has an error, or if the bench rejects the value.
 * @param {DebugSession} session
 * @param {string} place a place from `findSettablePlace`, or a key in the form `key 0 2`
 * @param {string} text the value as an expression
 */
export async function setPlace(session, place, text) {
  const { firstAnswer } = await session.debugger.session.serve(assignmentLines(place, text, session), async () => true);
  if (parseRefusal(firstAnswer)) throw new AdapterError(say.cannotBeSetMessage(place, firstAnswer));
}
