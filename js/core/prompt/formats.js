// Formats values for `print/FORMAT`.

import { compileExpression } from "../conditions/condition_language.js";
import { evaluateExpression } from "../adapter/expression_values.js";
import { hex } from "../bench/numbers.js";
import { rejectCommand } from "./argument_parsers.js";
import { errorInColumn } from "../../words/conditions.js";
import * as say from "../../words/prompt.js";

/**
 * @typedef {import("../debug/debug_session.js").DebugSession} DebugSession
 * @typedef {import("../adapter/expression_values.js").ExpressionContext} ExpressionContext
 */

/** @type {(base: number, prefix: string) => (value: number) => string} creates a formatter for a number base */
const createFormatter = (base, prefix) => (value) => `${value < 0 ? "-" : ""}${prefix}${Math.abs(value).toString(base).toUpperCase()}`;
/** @type {Record<string, (value: number, session: DebugSession) => string>} the formatters, by the letter after `print/` */
const FORMATS = {
  x: createFormatter(16, "0x"),
  d: createFormatter(10, ""),
  u: createFormatter(10, ""),
  o: createFormatter(8, "0"),
  t: createFormatter(2, "0b"),
  b: createFormatter(2, "0b"),
  a: (value, { map }) => (value < 0 ? createFormatter(16, "0x")(value) : say.addressWithName(hex(value, 3), map.nameOf(value) || "")),
};

/**
 * Returns the current value of an expression as a number: 1 for a true condition, 0 for a false condition. Fails if the expression has an
 * error.
 * @param {string} text
 * @param {DebugSession} session
 */
function evaluateNumber(text, session) {
  const { expression, error, column } = compileExpression(text, session.names);
  if (!expression) return rejectCommand(errorInColumn(error, column));
  const values = session.debugger.readPlaces(expression.places);
  if (expression.numberOf) return expression.numberOf(values);
  return expression.textOf(values) === "true" ? 1 : 0;
}

/**
 * Returns the current value of an expression as text. Fails if the expression has an error or the format is unknown.
 * @param {string} text the expression, with an optional format before it: `/x r4`
 * @param {ExpressionContext} context
 */
export function formatExpressionValue(text, context) {
  const [, format, expression = ""] = /^\/(\w*)\s*(.*)$/.exec(text) || [];
  if (format === undefined) return evaluateExpression(text, context);
  const knownFormats = Object.keys(FORMATS);
  const formatter = knownFormats.includes(format) ? FORMATS[format] : rejectCommand(say.noFormatMessage(format, knownFormats.join(", ")));
  if (expression === "") rejectCommand(say.PRINT_SYNTAX);
  if (/^(display|lamps)$/.test(expression.trim())) rejectCommand(say.notANumberMessage(expression));
  return formatter(evaluateNumber(expression, context.session), context.session);
}
