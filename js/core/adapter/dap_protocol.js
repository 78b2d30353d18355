// Defines the errors of the debug adapter protocol, and functions that read the arguments of requests.

import { getField } from "../server/framing.js";
import * as say from "../../words/adapter.js";
import { mustBeTextMessage } from "../../words/server.js";

/** The error that a request handler throws to reject its request. */
export class AdapterError extends Error {
  /**
   * @param {string} message
   * @param {boolean} [isShown] true if the client shows the message to the user
   */
  constructor(message, isShown = false) {
    super(message);
    this.isShown = isShown;
  }
}

/** The protocol's error message for a request that is rejected because the machine runs. */
export const NOT_STOPPED = "notStopped";
/** The protocol's error message for a cancelled request. */
export const REQUEST_CANCELLED = "cancelled";

/**
 * Throws an AdapterError with the given message.
 * @param {string} message
 * @returns {never}
 */
export function fail(message) {
  throw new AdapterError(message);
}

/**
 * Returns a required string field of a request's arguments; throws AdapterError if the field is missing or not a string.
 * @param {any} args the arguments
 * @param {string} name
 * @returns {string}
 */
export function requireText(args, name) {
  const value = getField(args, name);
  return typeof value === "string" ? value : fail(mustBeTextMessage(name));
}

/**
 * Returns an optional string field of a request's arguments; "" if it is missing. Throws AdapterError if the field is not a string.
 * @param {any} args the arguments
 * @param {string} name
 */
export function optionalText(args, name) {
  const value = getField(args, name);
  return value === undefined || value === null ? "" : requireText(args, name);
}

/**
 * Returns an integer field of a request's arguments. If the field is missing, returns the default value. Throws AdapterError if the field
 * is not an integer, or is missing without a default value.
 * @param {any} args the arguments
 * @param {string} name
 * @param {number} [defaultValue] returned if the field is missing
 * @returns {number}
 */
export function requireNumber(args, name, defaultValue) {
  const value = getField(args, name);
  if ((value === undefined || value === null) && defaultValue !== undefined) return defaultValue;
  return Number.isSafeInteger(value) ? value : fail(say.mustBeIntegerMessage(name));
}

/**
 * Returns an optional boolean field of a request's arguments; the default value if it is missing. Throws AdapterError if the field is not a
 * boolean.
 * @param {any} args the arguments
 * @param {string} name
 * @param {boolean} defaultValue returned if the field is missing
 * @returns {boolean}
 */
export function optionalFlag(args, name, defaultValue) {
  const value = getField(args, name);
  if (value === undefined || value === null) return defaultValue;
  return typeof value === "boolean" ? value : fail(say.mustBeBooleanMessage(name));
}

/**
 * Returns an optional list field of a request's arguments; an empty list if it is missing. Throws AdapterError if the field is not a list.
 * @param {any} args the arguments
 * @param {string} name
 * @returns {any[]}
 */
export function optionalList(args, name) {
  const value = getField(args, name);
  if (value === undefined || value === null) return [];
  return Array.isArray(value) ? value : fail(say.mustBeListMessage(name));
}

/**
 * Returns the message of a thrown value.
 * @param {unknown} thrown
 */
export function errorMessage(thrown) {
  return thrown instanceof Error ? thrown.message : String(thrown);
}
