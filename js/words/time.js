// Messages and labels about time: cycles, speeds, steps, and moves back and forward in time.

import { PLACES_HINT } from "./conditions.js";

// --- time/cycles.js ---
/** @type {(time: string) => string} */
export const inMilliseconds = (time) => `${time} ms`;
/** @type {(time: string) => string} */
export const inSeconds = (time) => `${time} s`;

// --- time/run_times.js ---
/** @type {(cycles: number, time: string) => string} */
export const cyclesAndMicroseconds = (cycles, time) => `${cycles} cycle${cycles === 1 ? "" : "s"}, ${time} microseconds`;
/** @type {(line: number, answer: string) => string} */
export const answerIsRefusalMessage = (line, answer) => `line ${line} is a refusal: ${answer}; mcs4 explain says why`;
/** @type {(lines: number) => string} */
export const tooFewAnswersMessage = (lines) => `there are only ${lines} lines of answers`;
export const NO_RUN = "none of these lines shows a run, as `ok 5 ran 100 end` does";
/** @type {Record<string, string>} the reason why a run stopped, at the end of its line in `mcs4 cycles`, by the bench's word */
export const STOP_REASONS = {
  end: "", break: ", to a breakpoint", watch: ", to a change of a watched nibble", code: ", to a code that is not an instruction",
};
/** @type {(place: string) => string} */
export const toPlace = (place) => `, to ${place}`;

// --- time/cycles_view.js ---
export const SET_MARKER_HINT = "marks this cycle; a second press shows how many cycles lie between the marks";
export const SET_MARKER = "Set marker";
export const SINCE_RESET_TOOLTIP = "the cycles since the last reset, or since this session was started or opened in this tab";
export const SINCE_RESET = "Since reset ";
export const IN_LAST_RUN = "in the last run without a stop";
export const SINCE_PAUSE = "Since pause ";
export const SINCE_MARK = "Since the mark ";
export const BETWEEN_MARKS = "Between the marks ";

// --- time/history_view.js ---
/** @type {(maximum: string) => string} */
export const instructionCountHint = (maximum) => `Nothing was done: enter a number of instructions, 1 to ${maximum}.`;
export const PLACE_MISSING = "Nothing was done: enter a place such as r5, lamp 3 or rom0.2, or a condition such as r5 > 8.";
/** @type {(error: string) => string} the error for the status bar; gives a few example places instead of the list of all places */
export const cannotSearchForMessage = (error) => `Nothing was done: ${error.replace(PLACES_HINT, EXAMPLE_PLACES)}.`;
const EXAMPLE_PLACES = "enter something such as r5, lamp 3 or rom0.2";

// --- time/run_controller.js ---
/** @type {(rate: string) => string} */
export const cyclesASecond = (rate) => `${rate} cycles a second`;
/**
 * @type {(name: string, errors: number) => string} the status text while a session runs, with its name and the number of breakpoints with
 * errors
 */
export const runningMessage = (name, errors) => `Running "${name}". F5 pauses it.${errors === 0 ? "" : errorsIn(errors)}`;
/** @type {(errors: number) => string} */
const errorsIn = (errors) => (
  ` ${errors === 1 ? "A breakpoint has an error: it stops" : `${errors} breakpoints have errors: they stop`} at each arrival.`);
/** @type {(time: string, isHidden: boolean) => string} */
export const wasPausedFor = (time, isHidden) => (
  `Running. Paused for ${time} while ${isHidden ? "the page was hidden" : "the tab was busy"}.`);
/** @type {(answer: string, reason: string) => string} */
export const pausedBy = (answer, reason) => `Paused: ${answer}: ${reason}.`;

// --- time/speeds.js ---
export const REAL_TIME = "real time";
export const ONE_A_SECOND = "an instruction a second";
export const FULL_SPEED = "full speed";

// --- time/travel.js ---
export const SEARCHING_GOAL = "Searching for the goal.";
export const REPEATING_PAST = "Replaying the past on a copy.";
export const GOING_FORWARD = "Going forward again.";
