// Parsers for the arguments of prompt commands: program locations, counts, times, conditions. A parser that fails throws RejectedCommand.

import { LAST_ADDRESS, parseNumber } from "../bench/numbers.js";
import { parseExactDuration } from "../conditions/durations.js";
import { instructionAtAddress, instructionForLine } from "../debug/breakpoints.js";
import { compileSearchCondition } from "../debug/condition_search.js";
import { ADDRESS_RANGE } from "../../words/adapter.js";
import * as say from "../../words/prompt.js";

/**
 * @typedef {import("../debug/debug_session.js").DebugSession} DebugSession
 * @typedef {{ line: number, address: number }} ProgramLocation a location in the program; `line` is 0 if the address has no source line
 */

/** The error that is thrown to reject a command. */
export class RejectedCommand extends Error {}

/**
 * Throws the error that rejects a command.
 * @param {string} message the error message
 * @returns {never}
 */
export function rejectCommand(message) {
  throw new RejectedCommand(message);
}

/**
 * Parses an address. Returns undefined if the text is not an address.
 * @param {string} text a label or an address, with an optional offset: `show + 3`
 * @param {DebugSession} session
 */
export function parseAddress(text, { map }) {
  const [, word, offsetText = "0"] = /^[@*]?\s*([A-Za-z0-9_]+)\s*(?:\+\s*(\w+))?$/.exec(text) || [];
  if (word === undefined) return undefined;
  const base = /^0x/i.test(word) ? parseNumber(word) : map.findValueIgnoringCase(word);
  const address = base === undefined ? NaN : base + parseNumber(offsetText);
  return Number.isNaN(address) ? undefined : address;
}

/**
 * Parses the location of an instruction. For a line without an instruction, returns the first instruction after the line, and fails if
 * there is none. Also fails if the text is not a location.
 * @param {string} text a line, a label or an address, optionally after a file name such as `demo.asm:`; or "" for the next
 *   instruction to run
 * @param {DebugSession} session
 * @returns {ProgramLocation}
 */
export function findInstruction(text, session) {
  const locationText = text.trim().replace(/^[^\s:]*\.[A-Za-z0-9]+:/, "");
  if (locationText === "") return { line: session.line, address: session.address };
  if (/^\d+$/.test(locationText)) {
    const { line, address } = instructionForLine(Number(locationText), session.map);
    if (address < 0) rejectCommand(say.noInstructionInMessage(locationText));
    return { line, address };
  }
  const address = parseAddress(locationText, session);
  if (address === undefined) rejectCommand(say.notInProgramMessage(locationText, say.FORMS_IN_PROGRAM));
  if (address > LAST_ADDRESS) rejectCommand(ADDRESS_RANGE);
  return { line: instructionAtAddress(address, session.map).line, address };
}

/**
 * Parses a count; fails if the count is not in the range from 1 to `maxCount`.
 * @param {string} text the count; "" means 1
 * @param {number} maxCount
 */
export function parseCountArgument(text, maxCount) {
  const count = text.trim() === "" ? 1 : Number(text);
  const isValid = /^\s*\d*\s*$/.test(text) && count >= 1 && count <= maxCount;
  if (!isValid) rejectCommand(say.countRangeMessage(maxCount.toLocaleString("en"), text.trim()));
  return count;
}

/**
 * Parses a time such as `20 ms`. Returns the number of cycles; fails if the text is not a time.
 * @param {string} text
 */
export function parseCycles(text) {
  const cycles = parseExactDuration(text.trim().split(/\s+/));
  return cycles > 0 ? cycles : rejectCommand(say.noTimeMessage(text.trim() || say.NOTHING));
}

/**
 * Returns the text unchanged if it is a condition. Returns "" for a program location (a line, an address or a label), and for any other
 * text without blanks or comparison signs. Fails if the condition has an error.
 * @param {string} text
 * @param {DebugSession} session
 */
export function parseConditionText(text, session) {
  const isLocation = /^\d+$/.test(text) || /^[^\s:]*\.[A-Za-z0-9]+:/.test(text) || parseAddress(text, session) !== undefined;
  if (isLocation || !/[\s=<>!]/.test(text)) return "";
  const { searchCondition, error } = compileSearchCondition(text, session.names);
  return searchCondition ? text : rejectCommand(error);
}
