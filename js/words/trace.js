// The words in a trace, which has one line per instruction.

// --- trace/trace_lines.js ---
export const SECOND_CYCLE = "(the second cycle)";

// --- trace/session_trace.js ---
/** @type {(reason: string) => string} the reason why the session stops before the next instruction */
export const stopsBefore = (reason) => `stops before it: ${reason === "code" ? "no instruction" : reason}`;
