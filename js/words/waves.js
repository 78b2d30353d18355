// Messages and labels of the logic analyser: recording, trigger, search, lines and values.

// --- waves/live_waves.js ---
/** @type {Record<string, string>} the reasons why a recording ended */
export const END_REASONS = {
  hand: "You stopped it.",
  back: "It ended when the session went back or forward.",
  board: "It ended when the board was wired again.",
  program: "It ended when other bytes were put into ROM.",
  lines: "It ended at lines that did more than it can follow.",
  long: "It ended after 4,000,000,000 cycles.",
  lost: "It ended because the bench was restarted.",
};
/** @type {(cycle: string) => string} */
export const triggerWasAt = (cycle) => ` The trigger was at cycle ${cycle}.`;
/** @type {(duration: string, trigger: string) => string} */
export const recordedDuration = (duration, trigger) => `Recorded ${duration}.${trigger}`;
/** @type {(duration: string, endReason: string, trigger: string) => string} */
export const recordedUntil = (duration, endReason, trigger) => `Recorded ${duration}. ${endReason}${trigger}`;
export const NOTHING = "nothing";
/** @type {(trigger: string) => string} */
export const recordingAfterTrigger = (trigger) => `Recording the cycles after the trigger.${trigger}`;
export const RECORDS_WHEN_RUNNING = "Records as soon as the machine runs.";
export const RECORDING = "Recording.";
/** @type {(trigger: string) => string} */
export const waitingForTrigger = (trigger) => ` Waiting for ${trigger}.`;

// --- waves/scope.js ---
export const RECORD = "Record";
/** @type {(minimum: number, maximum: string) => string} */
export const cycleCountHint = (minimum, maximum) => `Enter a number of cycles, from ${minimum} to ${maximum}.`;
/** @type {(maximum: string) => string} */
export const tooManyCyclesAfterMessage = (maximum) => `${maximum} cycles are kept: at most that many can follow the trigger.`;
/** @type {(error: string) => string} */
export const triggerNotUnderstood = (error) => `The trigger is not understood: ${error}.`;
export const STOP_RECORDING = "Stop recording";
/** @type {(query: string, isForward: boolean, cycle: string) => string} */
export const notFoundMessage = (query, isForward, cycle) => (
  `${query}: not found ${isForward ? "after" : "before"} cycle ${cycle} of this recording.`);
export const NO_LINE_CHOSEN = "No line is chosen: choose the lines for the file.";

// --- waves/trigger.js ---
/** @type {(name: string) => string} */
export const noSuchNameMessage = (name) => `nothing here is called ${name}; the Rows menu lists the names`;
export const LABEL_SYNTAX = "write a place of the program as @LABEL";
/** @type {(name: string) => string} */
export const lineIsDecodedMessage = (name) => `${name} is decoded from other lines: name one of those, as in: rom0.0 rises`;
/** @type {(name: string) => string} */
export const numberConditionSyntax = (name) => `${name} is a number: write ${name} changes, or as ${name} = 5`;

// --- waves/row_menu.js, waves/wave_view.js ---
export const ROW = "Row";
export const RENAME = "Rename";
export const NAME = "Name";
/** @type {(name: string) => string} */
export const nameLabel = (name) => `Name of ${name}`;
export const GROUP = "Group";
/** @type {(name: string) => string} */
export const groupLabel = (name) => `Group of ${name}`;
export const LEAVE_GROUP = "Leave the group";
export const UNGROUP = "Ungroup";
export const FOLD = "Fold or unfold";
export const MOVE_UP = "Move up";
export const MOVE_DOWN = "Move down";
export const HIDE = "Hide";
export const COLOURS = { "": "Usual colour", "red": "Red", "amber": "Amber", "green": "Green", "blue": "Blue", "violet": "Violet" };
/** @type {(name: string) => string} */
export const groupPrefix = (name) => `group ${name}, `;

// --- waves/measurement.js ---
/** @type {(value: string, isComplete: boolean, time: string) => string} */
export const valueDuration = (value, isComplete, time) => `${value} for ${isComplete ? "" : "at least "}${time}`;
/** @type {(text: string, time: string, frequency: string) => string} */
export const withPeriod = (text, time, frequency) => `${text}; period ${time}, ${frequency}`;
/** @type {(hertz: string) => string} */
export const inHertz = (hertz) => `${hertz} Hz`;
/** @type {(kilohertz: string) => string} */
export const inKilohertz = (kilohertz) => `${kilohertz} kHz`;

// --- waves/wave_catalog.js ---
/** @type {(name: string) => string} */
export const noNameMessage = (name) => `Nothing here is called ${name}.`;
/** @type {(count: number) => string} */
export const notListedMessage = (count) => (
  `${count === 1 ? "1 nibble of RAM is" : `${count.toLocaleString("en")} nibbles of RAM are`} not listed: find one, `
  + "as in: ram 0 0x12, or: st 0 1.");
/** @type {Record<string, string>} the titles of the line groups */
export const TITLES = {
  lamps: "Lamps", keys: "Keys", test: "TEST pin", numbers: "Ports and shift registers as numbers", decoders: "Decoders",
  registers: "Registers and pairs", pc: "Counter", label: "Label",
};

// --- waves/wave_choice.js, waves/wave_catalog.js ---
/** @type {(names: string) => string} */
export const inNextRecording = (names) => `${names} will be in the next recording.`;

/** @type {(group: string) => string} */
export const titleOfChip = (group) => group.replace(/^rom/, "ROM ").replace(/^ram/, "RAM ").replace(/^chain/, "Chain ");
/** The beginning of the group name for RAM nibbles. */
export const RAM_GROUP = "RAM, ";

// --- waves/decoders.js ---
/** @type {(value: string) => string} the text for a shift register's value between shifts */
export const valueAtRest = (value) => `= ${value}`;
export const NO_ROW = "-";
/** @type {(rows: number[]) => string} */
export const rowsText = (rows) => `${rows.length === 1 ? "row" : "rows"} ${rows.join("+")}`;
/** @type {(columns: number[]) => string} */
export const columnsText = (columns) => `${columns.length === 1 ? "column" : "columns"} ${columns.join("+")}`;
/** @type {(rows: string, keys: string) => string} */
export const scanText = (rows, keys) => `${rows}: ${keys}`;

// --- waves/wave_lines.js ---
/** @type {(chain: number) => string} */
export const shiftRegisterTitle = (chain) => `4003 shift-in ${chain}`;
export const KEY_SCAN = "key scan";
/** @type {(bank: string) => string} */
export const ramGroup = (bank) => `${RAM_GROUP}bank ${bank}`;
export const SRC_OF_ROMS = "the SRC byte that the ROMs keep";
/** @type {(port: string, line: string | number) => string} */
export const lineOf = (port, line) => `${port}, line ${line}`;
/** @type {(bank: string, character: string) => string} */
export const inBank = (bank, character) => `bank ${bank}, ${character}`;
export const STATUS_CHARACTER = "a status character";

// --- waves/wave_search.js ---
export const SEARCH_FORMS = "a value of the selected row, such as 9 or 0x1F; r5 = 9, rom0 != 0, lamp 3 rises, r5 changes, @LABEL";
/** @type {(forms: string) => string} */
export const searchQuestion = (forms) => `Enter a search: ${forms}.`;
/** @type {(label: string) => string} */
export const noLabelMessage = (label) => `The program of this recording has no label ${label}.`;
/** @type {(name: string) => string} */
export const notRecordedMessage = (name) => `Nothing that was recorded is called ${name}: select it and record again.`;
export const NO_ROW_SELECTED = "No row is selected: click one first.";
/** @type {(name: string) => string} */
export const decodedRowMessage = (name) => `${name} is decoded: search for its next change, or for a key of the key scan.`;
/** @type {(name: string) => string} */
export const numberRowMessage = (name) => `${name} is a number: search for a change, or for a value such as = 5.`;
/** @type {(value: string, forms: string) => string} */
export const noNumberMessage = (value, forms) => `${value} is not a number such as 10, 0x0A or 0b1010. Forms: ${forms}.`;
/** @type {(name: string, width: number, maximum: number) => string} */
export const valueTooLarge = (name, width, maximum) =>
  `${name} has ${width === 1 ? "1 bit" : `${width} bits`}: its value is at most ${maximum}.`;

// --- waves/wave_words.js ---
/** @type {(span: string) => string} */
export const distanceBetweenCursors = (span) => `A to B: ${span}`;
export const SECOND_CYCLE = "the second cycle of an instruction";
/** @type {(line: number, source: string) => string} */
export const sourceLineSuffix = (line, source) => `; line ${line} of the source: ${source}`;
export const NEXT_PREFIX = "next: ";
/** @type {(name: string, cycle: string, time: string, instruction: string) => string} */
export const cursorAt = (name, cycle, time, instruction) => `${name}: cycle ${cycle}, ${time}: ${instruction}`;
/** @type {(name: string, value: string) => string} */
export const valueIs = (name, value) => `${name} is ${value}, `;
/** @type {(value: string, cycle: string, instruction: string) => string} */
export const cursorDescription = (lineValue, cycle, instruction) => `${lineValue}cycle ${cycle}, ${instruction}`;
export const NOTHING_HAS_RUN = "Nothing was recorded: no cycle has run since the session was opened or its board was wired.";
/** @type {(cycles: string, time: string) => string} */
export const recordedSpan = (cycles, time) => `${cycles} recorded, ${time}.`;
/** @type {(text: string) => string} */
export const codeFollows = (text) => `${text} A code that is not an instruction follows.`;
/** @type {(text: string) => string} */
export const noFurtherBackMessage = (text) => `${text} The remembered past reaches no further back.`;

// --- waves/line_choice.js ---
/** @type {(name: string) => string} */
export const noSuchLineMessage = (name) => `the board has no line ${name}; mcs4 wave --lines SESSION prints the names of its lines`;
export const LABEL_NEEDS_PROGRAM = "`label` needs the program that is in ROM: --names PROGRAM";
/** @type {(name: string) => string} */
export const lineRepeated = (name) => `the line ${name} is given twice`;
