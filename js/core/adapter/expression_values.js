// Evaluates an expression in the current state: a place, a name from the program, a lamp, the display, a sum, or a condition.

import { hex } from "../bench/numbers.js";
import { compileExpression } from "../conditions/condition_language.js";
import { parsePlace } from "../conditions/places.js";
import { MachineState } from "../debug/machine_state.js";
import { joinPieces, valuePieces } from "../debug/word_values.js";
import { convertToBase, formatInBase } from "./number_format.js";
import { AdapterError } from "./dap_protocol.js";
import * as say from "../../words/adapter.js";
import { errorInColumn } from "../../words/conditions.js";

/**
 * @typedef {import("../debug/debug_session.js").DebugSession} DebugSession
 * @typedef {import("../board/face.js").Face} Face
 * @typedef {import("../help/manual.js").Instruction} Instruction
 * @typedef {import("./number_format.js").Base} Base
 *
 * The context in which an expression is evaluated. `instructions` are the manual's entries by mnemonic. `frontPanelText` returns the lamps
 * and displays as text.
 * @typedef {{ session: DebugSession, face: Face, instructions: Map<string, Instruction>, frontPanelText: () => string }} ExpressionContext
 */

/** Matches the places whose values are hexadecimal digits. */
const HEX_PLACES = /^(acc|dcl|src|r\d+|p\d|ram\.\d\..*|st\..*|rom\d+|ram\d\.\d)$/;
/** Matches the places whose value is text with one character per bit or lamp. */
const MARK_PLACES = /^(chain\d|lamps)$/;

/**
 * Returns the value of a place as text; for a lamp, a word that says whether the lamp is on. Returns "" if the text is not a place, or if
 * the board does not have the place.
 * @param {string} text
 * @param {ExpressionContext} context
 * @param {Base} base
 */
function valueOfPlace(text, { session, face }, base) {
  const word = text.replace(/^lamp /, "").trim();
  const lamp = face.lampNumbers.get(word) ?? face.lampNumbers.get(word.replace(/ /g, "_"));
  const name = lamp === undefined ? text : `lamp ${lamp}`;
  const place = parsePlace(name);
  const value = place ? session.values([name])[0] : "";
  if (value === "" || !place) return "";
  if (place.name.startsWith("lamp ")) return say.lampState(value === "*");
  if (HEX_PLACES.test(place.name)) return convertToBase(`0x${value}`, base);
  return MARK_PLACES.test(place.name) ? value : formatInBase(Number(value), base);
}

/**
 * Returns the value of `pc` (with its source line), `test` or `owed`; "" for any other text.
 * @param {string} text
 * @param {DebugSession} session
 * @param {Base} base
 */
function valueOfRegister(text, session, base) {
  const word = text.toLowerCase();
  const { registers } = session;
  if (word === "pc") return convertToBase(`0x${registers.counter}${registers.counter && lineSuffix(session)}`, base);
  return word === "test" || word === "owed" ? formatInBase(Number(registers[word]), base) : "";
}

/**
 * Returns the current source line as the suffix of an address, such as `, line 9`; "" if the line is unknown.
 * @param {DebugSession} session
 */
function lineSuffix(session) {
  return session.line > 0 ? `, line ${session.line}` : "";
}

/**
 * Returns the value of a name that the program defines; "" for any other text.
 * @param {string} text
 * @param {DebugSession} session
 */
function valueOfName(text, { map }) {
  const name = map.names.get(text.replace(/^@/, ""));
  if (!name) return "";
  if (!name.isLabel) return `0x${hex(name.value, 2)}, ${name.value}`;
  const line = map.lineOf(name.value);
  return `0x${hex(name.value, 3)}${line > 0 ? `, line ${line}` : ""}`;
}

/**
 * Returns the current value of an expression as text; throws AdapterError if the expression has an error.
 * @param {string} text
 * @param {ExpressionContext} context
 * @param {Base} [base] the number base of the output
 */
export function evaluateExpression(text, context, base = "default") {
  const { session } = context;
  const trimmed = text.trim();
  if (trimmed === "") throw new AdapterError(say.NOTHING_TO_EVALUATE);
  if (trimmed === "display" || trimmed === "lamps") return context.frontPanelText();
  const value = valueOfRegister(trimmed, session, base) || convertToBase(valueOfName(trimmed, session), base)
    || valueOfPlace(trimmed, context, base);
  if (value) return value;
  const { expression, error, column } = compileExpression(trimmed, session.names);
  if (!expression) throw new AdapterError(errorInColumn(error, column));
  const answers = session.debugger.readPlaces(expression.places);
  return expression.numberOf && base !== "default" ? formatInBase(expression.numberOf(answers), base) : expression.textOf(answers);
}

/**
 * Returns the hover text for a word or expression: the current value, or the effect of the instruction if there is no value. Throws
 * AdapterError if the text is neither an instruction nor a valid expression.
 * @param {string} text the word or expression under the pointer
 * @param {ExpressionContext} context
 */
export function expressionHover(text, context) {
  const { session, instructions } = context;
  const trimmed = text.trim();
  /** @type {(name: string) => import("../debug/word_values.js").NamedValue | undefined} */
  const nameOf = (name) => {
    const programName = session.map.names.get(name);
    return programName && { ...programName, description: session.map.meaningOf(name) };
  };
  const describeInstruction = (/** @type {string} */ word) => (instructions.get(word) || { effect: "" }).effect;
  const pieces = valuePieces(trimmed, 0, new MachineState(session.debugger.session.takeSnapshot()), { nameOf, describeInstruction });
  return pieces.length > 0 ? joinPieces(pieces) : describeInstruction(trimmed.toUpperCase()) || evaluateExpression(trimmed, context);
}
