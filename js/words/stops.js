// Messages about pauses: where the session paused, why, and after how many cycles. Also messages about moves back and forward in time.

import { hex } from "../core/bench/numbers.js";
import { formatCycles } from "../core/time/cycles.js";

/**
 * @typedef {import("../core/engine/past_search.js").BackGoal} BackGoal
 * @typedef {import("../core/bench/protocol.js").TravelResult} TravelResult
 * @typedef {import("../core/debug/debugger.js").Stop} Stop
 * @typedef {import("../core/debug/goals.js").Goal} Goal
 * @typedef {import("../core/machine/source_map.js").SourceMap} SourceMap
 */

/** @type {Record<string, string>} the reasons why a run stopped, by the stop reason (debug/debugger.js) */
export const PAUSE_REASONS = {
  code: "before a code that is not an instruction",
  break: "at a breakpoint",
  watch: "after a watched nibble changed",
  mistake: "before a mistake that is reported",
  recorded: "because the waves after the trigger have been recorded",
};

/** The message of Step out if no subroutine is running. */
export const NO_OPEN_CALL = "no call is open here";

/** @type {(line: number) => string} a reference to a line, by its number */
export const lineReference = (line) => `line ${line}`;

/**
 * Returns an address with its name and its source line, for example `00D (show + 3, line 12)`.
 * @param {string} address the address in hexadecimal
 * @param {SourceMap | null} map the source map of the program in ROM; null if unknown
 */
export function addressWithName(address, map) {
  const number = parseInt(address, 16);
  const line = map ? map.lineOf(number) : 0;
  const description = map && line > 0 ? [map.nameOf(number), lineReference(line)].filter(Boolean).join(", ") : "";
  return description ? `${address} (${description})` : address;
}

/**
 * Returns the message after a move back or forward in time.
 * @param {BackGoal | { kind: "forward" }} goal
 * @param {Pick<TravelResult, "isDone" | "reason" | "place" | "from" | "to" | "line" | "end" | "cycles">} travel the result of the move
 * @param {string} location the address at which the session is paused, with its name and line
 * @param {{ condition: string }} [breakpoint] the breakpoint at that address
 */
export function describeTimeTravel(goal, travel, location, breakpoint) {
  const { isDone, reason, from, to, line, end, cycles } = travel;
  if (!isDone) return `Nothing was done: ${travelFailureReason(goal, reason)}.`;
  const distance = cycles === 0 ? "" : `, ${formatCycles(cycles)}`;
  if (goal.kind === "forward") return `Forward again to ${location}${distance}${distance && " later"}.`;
  const before = cycles === 0 ? "" : `${distance} earlier`;
  if (goal.kind === "stop") return `Back at the stop at ${location}${before}.`;
  if (goal.kind === "instruction") return `Back at ${location}${before}: this instruction has not run yet.`;
  if (goal.kind === "call") return `Back at ${location}${before}: the subroutine begins here.`;
  if (end === "break") {
    const conditionText = describeBreakpointCondition(breakpoint && { ...breakpoint, from: 1, hits: 0 });
    return `Back at ${location}${before}, at a breakpoint${conditionText}.`;
  }
  if (end === "beginning") {
    return `Back at ${location}${before}, at the beginning of the remembered past: no breakpoint was passed since then.`;
  }
  const cause = line ? `the line ${line}` : "this instruction";
  if (goal.kind === "when") return `Back at ${location}${before}: ${cause} makes ${goal.condition} true.`;
  return `Back at ${location}${before}: ${cause} changes ${travel.place} from ${from} to ${to}.`;
}

/**
 * Returns the reason why a move in time was not possible.
 * @param {BackGoal | { kind: "forward" }} goal
 * @param {string} failure the word for the reason in the bench's result
 */
function travelFailureReason(goal, failure) {
  if (goal.kind === "forward") return "forward works only after going back, until something else is done";
  if (goal.kind === "stop") return "no stop before this one is remembered";
  if (goal.kind === "call") return "the remembered past does not reach back to the call";
  if (goal.kind === "instruction" || failure === "short" && goal.kind === "arrival") return "the remembered past reaches no further back";
  if (goal.kind === "when") return `${goal.condition} has not become true in the remembered past`;
  if (failure === "lacks") return `this board has no ${goal.place}`;
  return `${goal.place} has not changed in the remembered past`;
}

/**
 * Returns the message about a place's last change: the values, the instruction or session line that changed it, and the time. If no change
 * is recorded, the message says so. Returns "" if the board does not have the place.
 * @param {string} name the name of the place
 * @param {import("../core/debug/debugger.js").LastChange} change
 * @param {SourceMap | null} map the source map of the program in ROM; null if unknown
 */
export function lastChangeText(name, { isFound, reason, from, to, line, cycles, address }, map) {
  if (reason === "lacks") return "";
  if (!isFound) return `${name}: no change in the past that the page remembers.`;
  const cause = line ? `the line ${line}` : addressWithName(hex(address, 3), map);
  return `${name}: from ${from} to ${to} by ${cause}${cycles === 0 ? "" : `, ${formatCycles(cycles)} ago`}.`;
}

/**
 * Returns the description of a goal.
 * @param {Goal} goal
 */
export function describeGoal(goal) {
  if (goal.kind === "here") return `the address ${hex(goal.address, 3)}`;
  if (goal.kind === "count") return `the end of ${goal.count.toLocaleString("en")} instructions`;
  if (goal.kind === "change") return `a change of ${goal.place}`;
  if (goal.kind === "when") return `the condition ${goal.condition}`;
  return "the return from the subroutine";
}

/**
 * Returns the message that is shown while the session runs to a goal.
 * @param {Goal} goal
 */
export function runningToGoal(goal) {
  return `Running to ${describeGoal(goal)}.`;
}

/**
 * Returns the first part of the message about a goal that was reached.
 * @param {Goal} goal
 * @param {boolean} isReturn true if the goal was a return from a subroutine
 * @param {string} location
 */
function describeReachedGoal(goal, isReturn, location) {
  if (goal.kind === "here") return `Paused at ${location}, as requested`;
  if (goal.kind === "change") return `Paused at ${location}, after ${goal.place} changed`;
  if (goal.kind === "when") return `Paused at ${location}, after ${goal.condition} became true`;
  if (goal.kind === "count") return `${goal.count.toLocaleString("en")} instruction${goal.count === 1 ? " was" : "s were"} done`;
  return isReturn ? `Returned to ${location}` : `At ${location}`;
}

/**
 * Returns the message about a pause.
 * @param {Goal | null} goal null if the run had no goal
 * @param {Pick<Stop, "reason" | "cycles" | "endsAtReturn" | "change">} stop
 * @param {string} location the address at which the session is paused, with its name and line
 * @param {string} [conditionText] the condition and hit count of the breakpoint that caused the pause, in words
 */
export function pauseMessage(goal, { reason, cycles, endsAtReturn, change }, location, conditionText = "") {
  if (reason === "lacks") return `Nothing was done: this board has no ${goal && goal.kind === "change" ? goal.place : "such place"}.`;
  if (reason === "outside") return `Nothing was done: ${NO_OPEN_CALL}.`;
  const after = `after ${formatCycles(cycles)}`;
  if (goal && reason === "goal") return `${describeReachedGoal(goal, endsAtReturn, location)}, ${after}.`;
  const stopText = (PAUSE_REASONS[reason] || reason) + (reason === "break" ? conditionText : "");
  const reasonText = reason === "watch" && change ? `after ${change}` : stopText;
  if (!goal) return `Paused at ${location}, ${reasonText}.`;
  return `Paused at ${location}, ${reasonText}, ${after}; ${describeGoal(goal)} was not reached.`;
}

/**
 * Returns a breakpoint's condition and hit count in words, for example `, when r9 = 9, at hit 5`. Returns the error instead if there is
 * one, and "" if there is no breakpoint.
 * @param {{ condition: string, from: number, hits: number } | undefined} breakpoint
 * @param {string} [error] the error in the breakpoint; a breakpoint with an error stops at every hit
 */
export function describeBreakpointCondition(breakpoint, error = "") {
  if (!breakpoint) return "";
  if (error !== "") return ` that has an error, ${error}`;
  const { condition, from, hits } = breakpoint;
  return (condition.trim() ? `, when ${condition.trim()}` : "") + (from > 1 ? `, at hit ${hits.toLocaleString("en")}` : "");
}

/** @type {(address: string) => string} */
export const pausedAt = (address) => `Paused at ${address}.`;

/**
 * Returns the message after the user has paused the session. If the run has a goal, the message says that the goal was not reached.
 * @param {Goal | null} goal
 * @param {number} cycles the number of cycles since the start of the run
 * @param {string} location
 */
export function describeUserPause(goal, cycles, location) {
  return goal ? `Paused at ${location}, after ${formatCycles(cycles)}; ${describeGoal(goal)} was not reached.` : pausedAt(location);
}

/**
 * Returns the message about a run or a search that a page reload or the opening of another session has interrupted.
 * @param {Goal} goal
 * @param {boolean} wasRun true for a run to the goal, false for a search of the past
 * @param {string} location
 */
export function describeInterruption(goal, wasRun, location) {
  const goalText = `${describeGoal(goal)} was ${wasRun ? "not reached" : "searched for, and nothing was done"}`;
  return `Paused at ${location}: ${goalText}, because the page was reloaded or another session was shown.`;
}
