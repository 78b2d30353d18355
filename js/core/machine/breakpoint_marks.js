// Chooses and describes the marks of breakpoints in the margin of the source and in the listing.

import * as say from "../../words/machine.js";

/**
 * @typedef {import("../debug/breakpoints.js").Breakpoint} Breakpoint
 * @typedef {{ mark: string, description: string }} BreakpointMark
 */

/** The marks of breakpoints that stop every time, depend on a condition or a hit count, write a log text, or are inactive. */
const ALWAYS_STOPS_MARK = "\u25CF";
const CONDITION_MARK = "\u25C6";
const LOG_MARK = "\u25B8";
const INACTIVE_MARK = "\u25CB";

/**
 * Describes the condition, the hit count and the log text of a breakpoint. Returns "" if the breakpoint has none of them.
 * @param {Pick<Breakpoint, "condition" | "from" | "note">} breakpoint
 */
export function describeDetails({ condition, from, note }) {
  const conditionText = condition.trim() ? say.ifCondition(condition.trim()) : "";
  const hitText = from > 1 ? say.fromHit(from) : "";
  return `${conditionText}${hitText}${note.trim() && say.logsNote(note.trim())}`.replace(/^:? /, "");
}

/**
 * Describes a breakpoint in one sentence.
 * @param {Pick<Breakpoint, "condition" | "from" | "note">} breakpoint
 */
export function describeBreakpoint(breakpoint) {
  return say.breakpointWith(describeDetails(breakpoint));
}

/**
 * Returns the mark of a breakpoint and its description.
 * @param {Breakpoint} breakpoint
 * @param {string} error the error in the breakpoint's condition or log text, or ""; a breakpoint with an error stops every time
 * @returns {BreakpointMark}
 */
export function breakpointMark(breakpoint, error) {
  const description = describeBreakpoint(breakpoint);
  if (error) return { mark: ALWAYS_STOPS_MARK, description: say.stopsAlwaysByError(description, error) };
  if (!breakpoint.isOn) return { mark: INACTIVE_MARK, description: say.breakpointIsOff(description) };
  if (breakpoint.address < 0) return { mark: INACTIVE_MARK, description: say.stopsLater(description) };
  if (breakpoint.note.trim()) return { mark: LOG_MARK, description };
  return { mark: breakpoint.condition.trim() || breakpoint.from > 1 ? CONDITION_MARK : ALWAYS_STOPS_MARK, description };
}

/**
 * Returns the breakpoint marks by source line, and by address.
 * @param {Breakpoint[]} breakpoints
 * @param {Map<number, string>} errors the error messages, by breakpoint id
 */
export function breakpointMarks(breakpoints, errors) {
  /** @type {Map<number, BreakpointMark>} */
  const lines = new Map();
  /** @type {Map<number, BreakpointMark>} */
  const addresses = new Map();
  for (const breakpoint of breakpoints) {
    const mark = breakpointMark(breakpoint, errors.get(breakpoint.id) || "");
    if (breakpoint.line > 0) lines.set(breakpoint.line, mark);
    if (breakpoint.address >= 0) addresses.set(breakpoint.address, mark);
  }
  return { lines, addresses };
}
