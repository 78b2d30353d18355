// Defines types and error codes of the language server protocol, and functions that check the parameters of requests.

import { getField } from "./framing.js";
import * as say from "../../words/server.js";

/**
 * @typedef {{ line: number, character: number }} Position a position in a text; both numbers count from 0, and `character` counts UTF-16
 *   code units, as JavaScript does
 * @typedef {{ start: Position, end: Position }} Range
 * @typedef {{ range: Range, newText: string }} TextEdit
 * @typedef {{ uri: string, range: Range }} Location
 */

export const PARSE_ERROR = -32700;
export const INVALID_REQUEST = -32600;
export const METHOD_NOT_FOUND = -32601;
export const INVALID_PARAMS = -32602;
export const INTERNAL_ERROR = -32603;
export const NOT_INITIALIZED = -32002;
export const REQUEST_FAILED = -32803;
export const CONTENT_MODIFIED = -32801;
export const REQUEST_CANCELLED = -32800;

/** The error that a request handler throws to reject a request. `code` is an error code of the protocol. */
export class ProtocolError extends Error {
  /**
   * @param {number} code
   * @param {string} message
   */
  constructor(code, message) {
    super(message);
    this.code = code;
  }
}

/**
 * Returns a range within one line.
 * @param {number} line the line number from 1, as in errors and references
 * @param {number} from the first column, counted from 0
 * @param {number} to the column after the range
 * @returns {Range}
 */
export function rangeInLine(line, from, to) {
  return { start: { line: line - 1, character: from }, end: { line: line - 1, character: to } };
}

/**
 * Returns a value if it is a string; throws ProtocolError for any other value.
 * @param {any} value
 * @param {string} parameterName the name of the parameter
 * @returns {string}
 */
export function requireString(value, parameterName) {
  if (typeof value !== "string") throw new ProtocolError(INVALID_PARAMS, say.mustBeTextMessage(parameterName));
  return value;
}

/**
 * Returns a value as a position; throws ProtocolError if it is not a position.
 * @param {any} value
 * @returns {Position}
 */
export function requirePosition(value) {
  const [line, character] = [getField(value, "line"), getField(value, "character")];
  if (![line, character].every((number) => Number.isSafeInteger(number) && number >= 0)) {
    throw new ProtocolError(INVALID_PARAMS, say.POSITION_SYNTAX);
  }
  return { line, character };
}

/**
 * Returns a value as a range; throws ProtocolError if it is not a range.
 * @param {any} value
 * @returns {Range}
 */
export function requireRange(value) {
  return { start: requirePosition(getField(value, "start")), end: requirePosition(getField(value, "end")) };
}
