// Messages of the `mcs4 debug` prompt.

import { formatCycles } from "../core/time/cycles.js";

// --- prompt/breakpoint_commands.js ---
export const BREAKPOINT_NUMBER_MISSING = "which one? info breakpoints shows their numbers";
/** @type {(id: number, address: string) => string} */
export const breakpointAt = (id, address) => `Breakpoint ${id} at ${address}.`;
/** @type {(word: string) => string} */
export const noBreakpointMessage = (word) => `there is no breakpoint ${word}; info breakpoints shows their numbers`;
/** @type {(place: string) => string} */
export const placeIsWatchedMessage = (place) => `${place} is watched.`;
/** @type {(watched: string) => string} */
export const onlyOneWatchAllowed = (watched) => (
  `${watched} is watched, and only one place other than RAM characters can be watched: delete ${watched} first`);
/** @type {(place: string) => string} */
export const watchedByContinue = (place) => `${place} is watched: continue and reverse-continue stop at its changes.`;
/** @type {(place: string) => string} */
export const notWatchedMessage = (place) => `${place} is not watched`;
/** @type {(place: string) => string} */
export const watchOfContinue = (place) => `${place}, for continue and reverse-continue`;
export const NOTHING_WATCHED = "nothing is watched";

// --- prompt/stop_commands.js ---
/** @type {(condition: string) => string} a breakpoint's condition as an argument of `break`; "" if there is none */
export const ifCondition = (condition) => (condition && ` if ${condition}`);
/** @type {(note: string) => string} a breakpoint's log message as an argument of `break`; "" if there is none */
export const logNote = (note) => (note && ` log "${note}"`);
export const CONDITION_SYNTAX = "write condition N CONDITION, as in condition 1 r4 = 7";
export const IGNORE_SYNTAX = "write ignore N COUNT, as in ignore 1 5";
export const COMMANDS_SYNTAX = "write commands N, and lines up to end";
export const SAVE_SYNTAX = "write save breakpoints FILE";
/** The first line of a breakpoints file. */
export const BREAKPOINTS_HEADER = "# Breakpoints of mcs4 debug";
export const TEMPORARY = ", temporary";
/** @type {(id: number) => string} */
export const conditionRemovedMessage = (id) => `Breakpoint ${id} has no condition now.`;
/** @type {(maximum: string, text: string) => string} */
export const hitCountRangeMessage = (maximum, text) => `a hit count is 0 to ${maximum}, not ${text}`;
/** @type {(id: number, count: number) => string} */
export const breakpointWillIgnore = (id, count) => {
  if (count === 0) return `Breakpoint ${id} stops at its next hit.`;
  return `Breakpoint ${id} lets the next ${count === 1 ? "hit" : `${count.toLocaleString("en")} hits`} pass.`;
};
/** @type {(maximum: number) => string} */
export const tooManyCommandsMessage = (maximum) => `a breakpoint has at most ${maximum} commands; these are dropped`;
/** @type {(id: number) => string} */
export const commandsDropped = (id) => `the commands of breakpoint ${id} are dropped`;
/** @type {(id: number) => string} */
export const temporaryDeleted = (id) => `Breakpoint ${id} was temporary, and is deleted.`;
/** @type {(name: string, count: number) => string} */
export const savedIn = (name, count) => `${count} ${count === 1 ? "breakpoint" : "breakpoints"} saved in ${name}.`;

// --- prompt/formats.js ---
/** @type {(address: string, name: string) => string} */
export const addressWithName = (address, name) => `0x${address}${name && ` <${name}>`}`;
/** @type {(format: string, formats: string) => string} */
export const noFormatMessage = (format, formats) => `${format || "nothing"} is not a format; formats are ${formats}`;
/** @type {(value: string) => string} */
export const notANumberMessage = (value) => `${value} is not a number, so it has no format`;

// --- prompt/change_commands.js ---
export const BENCH_SYNTAX = "write bench LINE, as in bench state";
export const NO_SOURCE_FILE = "there is no source file to read";
export const SOURCE_IN_ROM = "The source is in ROM.";

// --- prompt/prompt_commands.js ---
/** @type {(word: string) => string} */
export const noCommandMessage = (word) => `there is no command ${word}; help lists all commands`;
/** @type {(word: string, names: string) => string} */
export const ambiguousCommand = (word, names) => `${word} is ambiguous: ${names}`;
/** @type {(names: string) => string} */
export const otherNames = (names) => ` Or: ${names}.`;

// --- prompt/prompt_keys.js ---
export const NO_KEYS = "the board has no keys";
export const NO_KEY_IS_DOWN = "none is down";
/** @type {(keys: string) => string} */
export const keysDown = (keys) => `down: ${keys}`;
/** @type {(command: string) => string} */
export const keySyntax = (command) => `write ${command} KEY; info keys shows their names`;
/** @type {(word: string, names: string) => string} */
export const noKeyMessage = (word, names) => `the board has no key ${word}; it has: ${names}`;

// --- prompt/inspect_commands.js ---
export const NO_LAMPS = "the board has no lamps";
export const PRINT_SYNTAX = "write print WHAT, as in print r4";
export const VIEW_SYNTAX = "write view, view on or view off";
export const VIEW_NEEDS_TERMINAL = "the view needs a terminal, where it is drawn above the typed commands";
export const NO_SUCH_DISPLAY = "there is no such display; info display shows their numbers";
/** @type {(place: string) => string} */
export const noPlaceOfMemoryMessage = (place) => (
  `${place} is neither a label nor an address; examples: x/8 LABEL, x/8 0x00F, x/16 ram.0.0x10`);
export const NO_LINE_THERE = "the source has no line there; x shows what is in ROM";
/** @type {(count: number) => string} */
export const sourceLineCountMessage = (count) => `the source has ${count} lines`;
export const NOTHING_DISPLAYED = "nothing is displayed";
/** @type {(program: string, count: number) => string} */
export const linesOf = (program, count) => `${program}, ${count} lines`;
export const SESSION_FILE = "a session file, which is updated at each stop";
export const IN_MEMORY = "in memory: nothing is saved";
/** @type {(kinds: string) => string} */
export const infoSyntax = (kinds) => `write info and one of ${kinds}`;
/** @type {(kind: string) => string} */
export const infoTakesNoArgument = (kind) => `info ${kind} takes no argument`;
export const SYMBOL_SYNTAX = "write info symbol PLACE, as in info symbol 0x00F";
export const NO_LOCALS = "a 4004 has no local variables; info registers shows the registers, info names shows the program's names";

// --- prompt/state_text.js ---
/** @type {(line: number, first: string, name: string, last: string) => string} */
export const lineLocation = (line, first, name, last) => (
  `${line > 0 ? `Line ${line}` : "No line of the source"} is at 0x${first}${name && ` (${name})`}${last && ` and 0x${last}`}.`);
export const NO_RAM = "the board has no RAM";
export const CALL_SUFFIX = ", the call";
export const NO_NAMES = "the source has no names";
export const NO_BREAKPOINTS = "there are no breakpoints";
/** @type {(place: string) => string} */
export const noPlaceOfRamMessage = (place) => `${place} is not a place of RAM such as ram.0.0x10`;
/** @type {(place: string) => string} */
export const noRamAtMessage = (place) => `the board has no RAM at ${place}`;

// --- prompt/move_commands.js ---
export const UNTIL_SYNTAX = "write until PLACE or until CONDITION, as in until show or until r5 > 8";
export const REVERSE_SYNTAX = "reverse-continue takes no argument; reverse-step N goes back N instructions";
export const FINISH_SYNTAX = "finish takes no argument";
export const CONTINUE_SYNTAX = "continue takes no argument; run TIME runs for a time";
export const NOTHING_STOPS = "nothing would stop it: set a breakpoint, or run for a time, as in run 100 ms";
/** @type {(message: string, keys: string) => string} */
export const notPressedMessage = (message, keys) => `${message} Not pressed: ${keys}.`;

// --- prompt/prompt_moves.js ---
/** @type {(location: string) => string} */
export const backInSubroutine = (location) => `Back in the subroutine, at ${location}: the remembered past begins in it.`;
/** @type {(location: string) => string} */
export const backAt = (location) => `Back at ${location}: this instruction has not run yet.`;
/** @type {(location: string, cycles: number, done: number, count: number) => string} */
export const fewerStepsBackMessage = (location, cycles, done, count) => (
  `Back at ${location}, ${formatCycles(cycles)} earlier, after ${done} of ${count} instructions: the remembered past begins here.`);

// --- prompt/debugger_prompt.js ---
/** The start of the message for a command that had no effect. */
export const NOTHING_DONE = "Nothing was done";
export const PAGE_REMEMBERS = "the page remembers";
export const SESSION_REMEMBERS = "the session remembers";
/** @type {(command: string) => string} */
export const placeSyntax = (command) => `write ${command} PLACE, as in ${command} r4`;
/** @type {(text: string, places: string) => string} */
export const noPlaceMessage = (text, places) => `${text} is not a place; places are ${places}`;

// --- prompt/argument_parsers.js ---
export const FORMS_IN_PROGRAM = "a line of the source such as 12, a label such as show or show + 2, an address such as 0x00F";
/** @type {(line: string) => string} */
export const noInstructionInMessage = (line) => `neither line ${line} of the source nor a line after it has an instruction`;
/** @type {(text: string, forms: string) => string} */
export const notInProgramMessage = (text, forms) => `${text} is not a place in the program; write ${forms}`;
/** @type {(maximum: string, text: string) => string} */
export const countRangeMessage = (maximum, text) => `a count is 1 to ${maximum}, not ${text}`;
/** @type {(text: string) => string} */
export const noTimeMessage = (text) => `${text} is not a time; write a number of cycles such as 538, or 54 us, 20 ms, 1.5 s`;
export const NOTHING = "nothing";
