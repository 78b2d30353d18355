// Reads and writes the breakpoint lines of a project file, such as `break line 14 at 0x00F off from 5 if "r4 = 7" log "R4 is {r4}"`. The
// lines omit default values.

import { hex } from "../bench/numbers.js";
import { MAX_BREAKPOINTS } from "./breakpoints.js";

/** @typedef {import("./breakpoints.js").SavedBreakpoint} SavedBreakpoint */

/** The pattern of text in quotes, in which a backslash escapes a character. */
const QUOTED_TEXT = '"((?:[^"\\\\]|\\\\.)*)"';
/** Matches a breakpoint line, and captures its parts. */
const BREAKPOINT_LINE = new RegExp("^break(?: line (\\d{1,5}))?(?: at 0x([0-9A-F]{3}))?( off)?(?: from (\\d{1,9}))?"
  + `(?: if ${QUOTED_TEXT})?(?: log ${QUOTED_TEXT})?$`);
/** The maximum length of a condition or note, in characters. */
export const MAX_TEXT_LENGTH = 250;

/**
 * Returns the text in quotes, with escapes. The text is truncated to MAX_TEXT_LENGTH characters, and one blank replaces each sequence of
 * blanks, tabs and line ends.
 * @param {string} text
 */
function quote(text) {
  return `"${text.slice(0, MAX_TEXT_LENGTH).replace(/\s+/g, " ").replace(/["\\]/g, "\\$&")}"`;
}

/**
 * Removes the backslashes of escaped characters, and truncates the text to MAX_TEXT_LENGTH characters.
 * @param {string} [text]
 */
function unquote(text = "") {
  return text.replace(/\\(.)/g, "$1").slice(0, MAX_TEXT_LENGTH);
}

/**
 * Returns the breakpoint lines of a project file, one per breakpoint.
 * @param {SavedBreakpoint[]} breakpoints
 */
export function formatBreakpoints(breakpoints) {
  return breakpoints.map(({ line, address, isOn, from, condition, note }) => ["break",
    ...(line > 0 ? [`line ${line}`] : []), ...(address >= 0 ? [`at 0x${hex(address, 3)}`] : []), ...(isOn ? [] : ["off"]),
    ...(from > 1 ? [`from ${from}`] : []), ...(condition ? [`if ${quote(condition)}`] : []), ...(note ? [`log ${quote(note)}`] : []),
  ].join(" "));
}

/**
 * Parses a breakpoint line. Returns null for any other line, and for a breakpoint with neither a line number nor an address.
 * @param {string} line
 * @returns {SavedBreakpoint | null}
 */
export function parseBreakpoint(line) {
  const match = BREAKPOINT_LINE.exec(line);
  if (!match || (match[1] === undefined && match[2] === undefined)) return null;
  const [, sourceLine = "0", address, off, from = "1", condition, note] = match;
  return {
    line: Number(sourceLine), address: address === undefined ? -1 : parseInt(address, 16), isOn: off === undefined,
    from: Math.max(1, Number(from)), condition: unquote(condition), note: unquote(note),
  };
}

/**
 * Returns the first breakpoints, up to the maximum number in a session.
 * @param {SavedBreakpoint[]} breakpoints
 */
export function limitBreakpoints(breakpoints) {
  return breakpoints.slice(0, MAX_BREAKPOINTS);
}
