// Messages and labels about debugging: breakpoints, watches, common mistakes, and values.

// --- debug/breakpoint_manager.js ---
/** @type {(maximum: number) => string} */
export const tooManyEnabledMessage = (maximum) => (
  `${maximum} breakpoints are on, the most that the bench allows. This one is off: disable another one first.`);
/** @type {(reason: string) => string} */
export const inactiveUntilThen = (reason) => `${reason} Until then this breakpoint stops nothing.`;
/** @type {(maximum: number) => string} */
export const tooManyBreakpointsMessage = (maximum) => `There can be at most ${maximum} breakpoints: remove one first.`;

// --- debug/breakpoints.js ---
/** @type {(line: number, next: number) => string} */
export const breakpointMovedToLine = (line, next) =>
  `Line ${line} puts no bytes into ROM: its breakpoint is at the next instruction, line ${next}.`;
/** @type {(line: number) => string} */
export const nothingFollowsMessage = (line) => `No instruction follows line ${line}: its breakpoint stops nothing.`;
/** @type {(address: string, line: number) => string} */
export const insideInstruction = (address, line) => `${address} is inside the instruction of line ${line}.`;
/** @type {(address: string, line: number, next: number) => string} */
export const insideAndMoved = (address, line, next) => (
  `${address} is inside the instruction of line ${line}: its breakpoint is at the next one, line ${next}.`);

// --- debug/data_watches.js ---
/** @type {(place: string, from: string, to: string) => string} */
export const changedFrom = (place, from, to) => `${place} changed from ${from} to ${to}`;
export const PC_ALWAYS_CHANGES = "pc changes at each instruction";

// --- debug/debug_session.js ---
/** @type {(pause: string, line: string) => string} */
export const lineEnded = (pause, line) => `${pause} The line ${line} ended there.`;

// --- debug/line_changes.js ---
/** @type {(count: number) => string} */
export const moreItems = (count) => ` and ${count} more`;

// --- debug/src_selection.js ---
/** @type {(name: string, isWrite: boolean, chip: number) => string} */
export const romAccess = (name, isWrite, chip) => `${name} ${isWrite ? "writes to" : "reads"} ROM ${chip}`;
/** @type {(access: string, location: string) => string} */
export const missingPartMessage = (access, location) => `${access}, which the board lacks${location}`;
/** @type {(access: string, location: string) => string} */
export const noOutputsMessage = (access, location) => `${access}, whose port has no output line${location}`;
/** @type {(access: string, location: string) => string} */
export const noInputsMessage = (access, location) => `${access}, whose port has no input line${location}`;
/** @type {(instruction: string, earlierRom: number, lastSrc: string) => string} */
export const selectedByEarlierSrc = (instruction, earlierRom, lastSrc) =>
  `this ${instruction}, but the last time it used ROM ${earlierRom}: the last SRC${lastSrc}`;
/** @type {(address: string) => string} */
export const atAddress = (address) => `, at ${address},`;
/** @type {(lastSrc: string, user: string) => string} */
export const srcWasForMessage = (lastSrc, user) => `${lastSrc} was for ${user === "RAM" ? user : `an ${user}`}; is an SRC missing?`;
/** @type {(address: string) => string} */
export const lastSrcSuffix = (address) => `; the last SRC is at ${address}`;
/** @type {(bank: number) => string} */
export const bankWithoutRam = (bank) => `bank ${bank}, where the board has no RAM`;
/** @type {(chip: number, bank: number, chips: number) => string} */
export const chipOfBank = (chip, bank, chips) => `chip ${chip} of bank ${bank}, which has ${chips}`;
/** @type {(name: string, target: string, lastSrc: string) => string} */
export const writesTo = (name, target, lastSrc) => `${name} writes to ${target}${lastSrc}`;

// --- debug/soft_breakpoints.js ---
/** @type {(part: string, error: string) => string} */
export const noteErrorMessage = (part, error) => `the note asks for ${part}: ${error}`;

// --- debug/machine_state.js ---
/** @type {(chip: number, register: number, character: number) => string} */
export const characterAt = (chip, register, character) => `chip ${chip}, register ${register}, character ${character}`;
/** @type {(bank: string) => string} */
export const srcOfBank = (bank) => `SRC of bank ${bank}`;

// --- debug/common_mistakes.js ---
/** The names of the kinds of common mistakes: labels of the check boxes that make the session pause at such a mistake. */
export const MISTAKE_KINDS = /** @type {Record<import("../core/debug/common_mistakes.js").Kind, string>} */ ({
  calls: "a fourth JMS inside three others",
  return: "a BBL without a call",
  lines: "WRR at a port without outputs, or RDR at a port without inputs",
  chip: "a write to a chip that the board lacks",
  bytes: "bytes that no line of the source put there",
  source: "an SRC that still points elsewhere",
});
export const LEFT_PROGRAM = "execution left the program";
/** @type {(address: string) => string} */
export const returnWithoutCall = (address) => `a BBL without a call: it goes to ${address}, which does not follow a JMS`;
/** @type {(address: string) => string} */
export const returnAddressLost = (address) => `4th nested JMS: return address ${address} was overwritten`;

// --- debug/word_values.js, debug/watch_expressions.js, debug/condition_search.js ---
/** @type {(bank: number, character: string) => string} */
export const inBank = (bank, character) => `bank ${bank}, ${character}`;
/** @type {(selection: string) => string} */
export const boardLacks = (selection) => `${selection}, which the board lacks`;
/** @type {(chip: number) => string} */
export const romChip = (chip) => `ROM ${chip}`;
export const NOTHING_ON_BOARD = "nothing that the board has";
export const SELECTS = "; selects ";
/** @type {(chip: number, out: string, read: string) => string} */
export const portOfRom = (chip, out, read) => `ROM ${chip}: outputs ${out}, RDR reads ${read}`;
/** @type {(bank: number, chip: number, out: string) => string} */
export const portOfRam = (bank, chip, out) => `bank ${bank}, chip ${chip}: ${out === "" ? BOARD_LACKS_IT : `its port outputs ${out}`}`;
export const BOARD_LACKS_IT = "the board lacks it";
export const READS_NO_PLACE = "it uses no place of the machine, so it never becomes true";
/** @type {(bank: number, chip: number, register: number, character: string) => string} */
export const statusAt = (bank, chip, register, character) => (
  `bank ${bank}, chip ${chip}, register ${register}, status character ${character}`);
/** @type {(value: string, binary: string) => string} */
export const valueSentBySrc = (value, binary) => `${value}, ${binary}; sent by SRC, it selects `;
/** @type {(description: string) => string} */
export const withNextInstructionNote = (description) => `${description}; the next instruction is there`;

// --- debug/watch_expressions.js ---
/** @type {(out: string, read: string) => string} */
export const outAndIn = (out, read) => `out ${out}, in ${read}`;
/** @type {(maximum: number) => string} */
export const tooLongMessage = (maximum) => `It has more than ${maximum} characters.`;
export const NAME_SYNTAX = "A name has letters, digits and _, as in: count = R5.";
export const EXPRESSION_MISSING = "An expression is missing, as in: count = R5, r4 + 1 > 9.";
/** @type {(number: string, digits: string) => string} */
export const withHex = (number, digits) => `${number} (0x${digits})`;
