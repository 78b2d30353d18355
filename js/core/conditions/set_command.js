// Parses `set PLACE = VALUE` or `set PLACE VALUE`, and translates it into bench lines.

import { LAST_ADDRESS, hex, parseNumber } from "../bench/numbers.js";
import { parseExpression } from "./parser.js";
import { maxPlaceValue, parsePlace } from "./places.js";
import { ConditionError, fail } from "./scanner.js";
import { evaluateConstant, hintFor } from "./values.js";
import * as say from "../../words/conditions.js";

/**
 * @typedef {import("./condition_language.js").Names} Names
 * @typedef {import("./parser.js").ValueNode} ValueNode
 * @typedef {{ place: string, value: ValueNode }} Setting a place with its new value; `place` is a result of `settablePlaceName`
 *
 * The place and the bench lines that set it. If the text has an error, `error` is the message and `column` is the column in the text after
 * `set`.
 * @typedef {{ place: string, lines: string, error: string, column: number }} SettingResult
 */

/** Matches the places that can be set, except `test` and ROM bytes. */
const SETTABLE_PLACE = /^(acc|cy|pc|dcl|r\d+|p\d|(ram|st)\..*)$/;

/**
 * Returns the standard spelling of a place, such as `ram.0.0x12`, if `set` can change it; "" for any other text.
 * @param {string} text
 */
export function settablePlaceName(text) {
  const word = text.trim().toLowerCase();
  if (word === "test") return word;
  const addressMatch = /^rom\.(\w+)$/.exec(word);
  if (addressMatch) return parseNumber(addressMatch[1]) <= LAST_ADDRESS ? `rom.0x${hex(parseNumber(addressMatch[1]), 3)}` : "";
  const place = parsePlace(word);
  return place && SETTABLE_PLACE.test(place.name) ? place.name : "";
}

/**
 * Returns the bench lines that set a place.
 * @param {string} place the place, as spelled by `settablePlaceName`
 * @param {number} value the value, in the range of the place
 */
export function settingLines(place, value) {
  if (place === "test") return `test ${value}\n`;
  const pairMatch = /^p(\d)$/.exec(place);
  if (!pairMatch) return `poke ${place} ${value}\n`;
  const register = 2 * Number(pairMatch[1]);
  return `poke r${register} ${value >> 4}\npoke r${register + 1} ${value & 15}\n`;
}

/**
 * Parses the text after `set`; throws `ConditionError` if the text has an error.
 * @param {string} text
 * @returns {Setting}
 */
export function parseSetting(text) {
  if (text.trim() === "") return fail(say.SET_SYNTAX, 0);
  const node = parseExpression(text);
  if (node.kind === "compare" && node.sign === "=" && node.left.kind === "name") return createSetting(node.left, node.right);
  return node.kind === "values" && node.values.length === 1 ? createSetting(node.place, node.values[0]) : fail(say.SET_SYNTAX, node.column);
}

/**
 * Returns the setting for a place and a value; throws `ConditionError` if the place cannot be set.
 * @param {import("./parser.js").NameNode} left the node of the place
 * @param {ValueNode} value
 * @returns {Setting}
 */
function createSetting({ text, column }, value) {
  const place = settablePlaceName(text);
  if (place !== "") return { place, value };
  return fail(parsePlace(text) || !hintFor(text) ? say.cannotBeSetMessage(text) : say.noSuchPlaceMessage(text, hintFor(text)), column);
}

/**
 * Translates the text after `set`, which has the form `PLACE = VALUE`, into bench lines. VALUE can contain numbers and names from the
 * program.
 * @param {string} text
 * @param {Names["map"]} map the source map of the program
 * @param {import("./condition_language.js").Board | null} [board] if given, a place that the board does not have is an error
 * @returns {SettingResult}
 */
export function compileSetting(text, map, board = null) {
  try {
    const { place, value } = parseSetting(text);
    const parsedPlace = parsePlace(place);
    if (board && parsedPlace && parsedPlace.probesOn(board).length === 0) fail(say.boardLacks(place), 0);
    const number = evaluateConstant(value, map);
    if (number < 0 || number > maxPlaceValue(place)) fail(say.valueRangeMessage(place, maxPlaceValue(place), value.text), value.column);
    return { place, lines: settingLines(place, number), error: "", column: -1 };
  } catch (error) {
    if (error instanceof ConditionError) return { place: "", lines: "", error: error.message, column: Math.max(0, error.column) };
    throw error;
  }
}
