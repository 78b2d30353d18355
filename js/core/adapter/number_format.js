// Formats the numbers in responses. By default, machine values are hexadecimal and computed values, such as sums, are decimal. With
// `format.hex`, a client selects one base for all numbers.

import { getField } from "../server/framing.js";
import { fail, optionalFlag } from "./dap_protocol.js";
import * as say from "../../words/adapter.js";

/** @typedef {"default" | "hex" | "decimal"} Base a number base; "default" is the default base of each value */

/**
 * Returns a boolean field of the `format` argument of a request. Throws AdapterError if the argument or the field has a wrong type.
 * @param {any} args
 * @param {"hex" | "line"} name
 * @returns {boolean | null} null if the request does not specify the field
 */
export function readFormatFlag(args, name) {
  const format = getField(args, "format");
  if (format === undefined || format === null) return null;
  if (typeof format !== "object" || Array.isArray(format)) return fail(say.FORMAT_OBJECT_SYNTAX);
  return getField(format, name) === undefined ? null : optionalFlag(format, name, false);
}

/**
 * Returns the number base that a request specifies; "default" if it specifies none.
 * @param {any} args
 * @returns {Base}
 */
export function requestedBase(args) {
  const isHex = readFormatFlag(args, "hex");
  if (isHex === null) return "default";
  return isHex ? "hex" : "decimal";
}

/**
 * Converts the numbers in a value to a base.
 * @param {string} text text whose numbers begin with 0x; it can be one number followed by its decimal form, as in `0x1F, 31`
 * @param {Base} base
 */
export function convertToBase(text, base) {
  if (base === "default") return text;
  const hexText = text.replace(/^(0x[0-9A-F]+), \d+$/, "$1");
  return base === "hex" ? hexText : hexText.replace(/\b0x[0-9A-F]+\b/g, (digits) => String(Number(digits)));
}

/**
 * Formats a number in a base; "default" means decimal.
 * @param {number} number
 * @param {Base} base
 */
export function formatInBase(number, base) {
  if (base !== "hex") return String(number);
  return `${number < 0 ? "-" : ""}0x${Math.abs(number).toString(16).toUpperCase()}`;
}
