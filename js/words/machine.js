// Messages and labels about the machine: registers, RAM, ports, the disassembly, breakpoints, and watched values.

// --- machine/breakpoint_marks.js ---
/** @type {(condition: string) => string} */
export const ifCondition = (condition) => ` if ${condition}`;
/** @type {(from: number) => string} */
export const fromHit = (from) => ` from hit ${from} on`;
/** @type {(details: string) => string} */
export const breakpointWith = (details) => `breakpoint${details && ` ${details}`}`;
/** @type {(note: string) => string} */
export const logsNote = (note) => `: logs "${note}" and continues`;
/** @type {(breakpoint: string, error: string) => string} */
export const stopsAlwaysByError = (breakpoint, error) => `${breakpoint}: it stops every time, because of an error: ${error}`;
/** @type {(breakpoint: string) => string} */
export const breakpointIsOff = (breakpoint) => `${breakpoint}: it is off`;
/** @type {(breakpoint: string) => string} */
export const stopsLater = (breakpoint) => `${breakpoint}: it stops once the source is assembled`;

// --- machine/breakpoints_view.js ---
export const ON = "on";
/** @type {(time: string) => string} */
export const loggedAt = (time) => `at ${time}`;
export const EDIT = "Edit";
/** @type {(address: string) => string} */
export const editBreakpoint = (address) => `edit the breakpoint at ${address}`;
export const REMOVE_BREAKPOINT = "remove this breakpoint";
export const REMOVE_TIP = "removes it";
/** @type {(count: string) => string} */
export const moreNotes = (count) => `${count} more`;

// --- machine/breakpoint_form.js ---
export const BREAKPOINT_FIELDS = "Breakpoint";
export const CONDITION = "Condition";
/** @type {(error: string) => string} */
export const stopsEachTime = (error) => `It stops every time, because of an error: ${error}.`;
export const CONDITION_HINT = "stops if this is true, as in: R5 >= 8 and cy = 1, count = 9 or lamp 3 on, display 42";
export const CONDITION_EXAMPLE = "such as r9 = 9";
export const HIT_COUNT = "Hit count";
export const STOPS_FROM_HIT = "stops from this hit on";
export const NOTE_EXAMPLE = "such as R4 is {r4}";
export const LOG_MESSAGE = "Log message";
export const LOG_MESSAGE_HINT = "is logged instead of stopping; {r9} and {lamps} are replaced by values";
export const APPLY = "Apply";
export const CANCEL = "Cancel";

// --- machine/breakpoints_controller.js ---
export const LINE = "Line";
export const ADD_BREAKPOINT_ITEM = "Add breakpoint";
export const REMOVE_BREAKPOINT_ITEM = "Remove breakpoint";
export const DISABLE_BREAKPOINT_ITEM = "Disable breakpoint";
export const ENABLE_BREAKPOINT_ITEM = "Enable breakpoint";
export const RUN_TO_LINE = "Run to this line";

// --- machine/cell_editor.js ---
export const NOT_HEXADECIMAL = "Type hexadecimal digits: 0 to 9, A to F.";
/** @type {(name: string) => string} */
export const inHexadecimal = (name) => `${name}, in hexadecimal digits`;

// --- machine/go_to_target.js ---
/** @type {(word: string) => string} */
export const addressTooLargeMessage = (word) => `${word} is not an address: the last one is FFF, or 4095.`;
export const ADDRESS_FORMS = "write an address as the listing does (01E), as 0x01E or in decimal (30)";
/** @type {(forms: string) => string} */
export const nothingToGoToMessage = (forms) => `Enter where to go: ${forms}.`;
/** @type {(word: string, forms: string) => string} */
export const noNameOrAddressMessage = (word, forms) => `${word} is neither a name of the program nor an address: ${forms}.`;
/** @type {(word: string, forms: string) => string} */
export const notAnAddressMessage = (word, forms) =>
  `${word} is not an address: ${forms}. Names are known only while the source is the same as ROM.`;

// --- machine/heat_levels.js ---
/** @type {(line: string) => string} */
export const causeLine = (line) => `the line ${line}`;
/** @type {(cause: string) => string} */
export const causedBy = (cause) => `by ${cause}`;
/** @type {(cause: string, time: string) => string} */
export const causedByAgo = (cause, time) => `by ${cause}, ${time} ago`;
export const ONCE = "once";
/** @type {(count: string) => string} */
export const manyTimes = (count) => `${count} times`;
export const LAST_CHANGE = ", last";
/** @type {(count: string, cause: string) => string} */
export const changesSeenRunning = (count, cause) => `at least ${count} while running, most recently by ${cause}`;
/** @type {(chips: number, isComplete: boolean) => string} */
export const heatStatus = (chips, isComplete) => (
  `Counted while running${chips > 1 ? `, in one of ${chips} chips at a time` : ""}${isComplete ? "" : "; sampled at full speed"}.`);
export const NOTHING_EARLIER = "No earlier cycle is remembered.";
/** @type {(time: string, isComplete: boolean) => string} */
export const inTheLast = (time, isComplete) => `In the last ${time}${isComplete ? "" : " (no more is remembered)"},`;
/** @type {(period: string) => string} */
export const nothingChangedMessage = (period) => `${period} no character of RAM has changed.`;
/** @type {(period: string, name: string, change: string) => string} */
export const oneChangeMessage = (period, name, change) => `${period} one character has changed: ${name}, ${change}.`;
/** @type {(name: string, count: string) => string} */
export const mostFrequentChange = (name, count) => `most often ${name}, ${count}`;
/** @type {(period: string, count: number, mostChanged: string, lastChanged: string, change: string) => string} */
export const manyChangesMessage = (period, count, mostChanged, lastChanged, change) =>
  `${period} ${count} characters have changed: ${mostChanged}; last ${lastChanged}, ${change}.`;

// --- machine/heat_view.js ---
/** @type {(maximum: string) => string} */
export const cycleCountHint = (maximum) => `Enter a number of cycles, from 1 to ${maximum}.`;
export const SEARCHING_PAST = "Searching the past.";
/** @type {(cause: string) => string} */
export const changedBy = (cause) => `changed ${cause}`;

// --- machine/listing_rows.js ---
/** @type {(address: string) => string} */
export const breakpointInsideInstruction = (address) => (
  `breakpoint at ${address}, inside this instruction: a run that gets here does not stop; click to clear it`);

// --- machine/machine_view.js ---
export const PENDING_CYCLE_IS_READ_ONLY = "No command sets the pending cycle; a step or a run changes it.";
export const PORTS_ARE_READ_ONLY =
  "No command sets a port: a program writes its latch with WRR, and keys and wires determine what it reads.";
export const LINES_3_TO_0 = "lines 3 to 0";
export const PORTS_OF_ROMS = "Ports of the ROMs";
export const SRC_OF_ROMS = "SRC, ROMs";

// --- machine/ram_view.js ---
export const RAM_PORTS_ARE_READ_ONLY = "No command sets the output of a RAM chip's port: a program does, with WMP.";
/** @type {(bank: number, chip: number, register: number) => string} */
export const registerOfChip = (bank, chip, register) => `bank ${bank}, chip ${chip}, register ${register}`;
export const NO_RAM = "This board has no RAM.";
export const NIBBLES = "nibbles 0 to F";
export const PORT = "port ";
/** @type {(bank: number) => string} */
export const bankOf = (bank) => `bank ${bank}`;
/** @type {(register: string, character: number, source: string) => string} */
export const characterTitle = (register, character, source) => `${register}, character ${character}: SRC byte ${source}`;
/** @type {(register: string, character: number) => string} */
export const statusTitle = (register, character) => `${register}, status character ${character}`;
/** @type {(bank: number, chip: number) => string} */
export const portTitle = (bank, chip) => `bank ${bank}, chip ${chip}: what its output port holds`;

// --- machine/return_addresses.js ---
export const STALE_RETURN = "stale";
export const NO_CALL_FOR_ADDRESS = "No call is waiting for a BBL with this address.";
/** @type {(line: number) => string} */
export const callInLine = (line) => `call on line ${line}`;

// --- page/compose_debug.js ---
export const LINE_HAS_NO_ADDRESS = "Nothing was done: the source is not the same as ROM, or this line puts no bytes into ROM.";

// --- machine/source_map.js ---
/** @type {(word: string, address: string, line: string) => string} */
export const wordWithAddress = (word, address, line) => `${word}: address 0x${address}${line}`;
/** @type {(line: number) => string} */
export const lineSuffix = (line) => `, line ${line}`;

// --- machine/source_sync.js ---
export const DOT_ENDS = "a line with only a dot ends the text";
/** @type {(line: number) => string} */
export const onSourceLine = (line) => ` on line ${line}`;
/** @type {(location: string, error: string) => string} */
export const sourceHasError = (location, error) => `The source has an error${location}: ${error}.`;
/** @type {(address: string, line: number) => string} */
export const noRomAtMessage = (address, line) => `The board has no ROM at ${address}, where line ${line} of the source goes.`;
/** @type {(address: string, line: number) => string} */
export const differsAt = (address, line) => `Source and ROM differ from line ${line} (${address}). Assemble to update.`;

// --- machine/source_locations.js ---
/** @type {(address: string) => string} */
export const notInSourceMessage = (address) => `${address}, which the source does not fill`;
/** @type {(address: string, line: number, code: string) => string} */
export const locationInSource = (address, line, code) => `${address}, line ${line}: ${code}`;

// --- machine/stack_view.js ---
export const COUNTER_AND_RETURNS = "Counter and return addresses";

// --- machine/mistakes_view.js ---
/** @type {(error: string) => string} */
export const stopsBefore = (error) => `pauses before ${error}`;
export const BREAK_ON_THIS = " Break on this";

// --- machine/watch_view.js ---
/** @type {(maximum: number) => string} */
export const tooManyWatchesMessage = (maximum) => `At most ${maximum} expressions can be watched: remove one first.`;
/** @type {(name: string) => string} */
export const stopWatching = (name) => `stop showing ${name}`;
export const WHEN_PAUSED = "seen when paused";
