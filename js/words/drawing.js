// Messages and labels of the Wiring tab: the shelf of parts, the fields, the effects of actions, and the reasons why an action is not
// possible.

// --- drawing/drawing_actions.js ---
export const TEST_IN_USE = "TEST already has a button or a switch: delete it first.";
/** @type {(part: string) => string} */
export const boardHasNoMessage = (part) => `The board has no ${part}.`;
/** @type {(name: string, target: string) => string} */
export const needsInput = (name, target) => `${name} is an output line: ${target} is read at an input line of a ROM.`;
/** @type {(name: string, target: string) => string} */
export const needsOutput = (name, target) => `${name} is an input line: ${target} needs an output line.`;
/** @type {(name: string) => string} */
export const cannotDriveMessage = (name) => (
  `Consecutive bits of one chain drive the rows of the keys: ${name} cannot drive this row.`);
/** @type {(name: string, kind: string, target: string) => string} */
export const needsChipLine = (name, kind, target) => (
  `${name} is a ${kind} of a chain: ${target} needs an output line of a ROM or a RAM chip.`);
/** @type {(line: string, connections: string) => string} */
export const lineInUse = (line, connections) => `${line} is wired to ${connections}: wire that to another line first.`;
export const AND = " and ";
export const ONLY_ONCE = "A board has only one of these.";
export const COPY_ONLY_IN_TEXT = "Lamps that belong together can only be copied in the board's text.";
export const NAME_WOULD_CHANGE_GRID = "Another lamp would then be at its place in the grid: choose another name.";
export const TEST_NEEDS_NAME = "The part at TEST needs a name.";
export const BUZZER_NEEDS_NAME = "A buzzer needs a name.";
export const CANNOT_BE_NAMED = "This part cannot have a name.";
/** @type {(colour: string, colours: string) => string} */
export const noColourMessage = (colour, colours) => `${colour} is not a colour; the colours are ${colours}.`;
/** @type {(digits: string) => string} */
export const displayAdded = (digits) => `A display of ${digits} was added`;
/** @type {(part: string, original: string) => string} */
export const copyAdded = (part, original) => `${part} was added, a copy of ${original}`;
/** @type {(line: string, target: string) => string} */
export const lineWired = (line, target) => `Line ${line} is wired to ${target}`;
/** @type {(line: string, direction: string) => string} */
export const lineDirectionSet = (line, direction) => `Line ${line} is an ${direction}`;
export const INPUT = "input";
/** @type {(level: string) => string} */
export const outputReadsAs = (level) => `output that reads as ${level}`;
/** @type {(chain: number, chips: string) => string} */
export const chainResized = (chain, chips) => `Chain ${chain} has ${chips}`;
/** @type {(rows: string) => string} */
export const keyRowsSet = (rows) => `The keys have ${rows}`;
export const COLUMN_ADDED = "The keys have one more column";
/** @type {(effect: string) => string} */
export const andWithIt = (effect) => `, and with it ${effect}`;
/** @type {(part: string, name: string) => string} */
export const partNamed = (part, name) => (name ? `${part} is called ${name}` : `${part} has no name`);
/** @type {(lamp: number, colour: string) => string} */
export const lampColoured = (lamp, colour) => `Lamp ${lamp} is ${colour}`;
export const USUAL_RED = "red, as usual";
export const FRONT_PANEL_UNREADABLE = "The front panel of the board could then not be read.";
export const TEXT_HAS_ERRORS = "The board's text has errors: see Board.";
/** @type {(parts: string) => string} */
export const withAddedParts = (parts) => `, with ${parts}`;
/** @type {(items: string[]) => string} */
export const joinWithAnd = (items) => items.join(", ").replace(/, ([^,]*)$/, " and $1");

// --- drawing/part_addition.js ---
/** @type {(maximum: number) => string} */
export const tooManyRomsMessage = (maximum) => `A board has at most ${maximum} ROMs.`;
/** @type {(banks: number, chips: number) => string} */
export const tooManyRamChipsMessage = (banks, chips) => `A board has at most ${banks} banks of ${chips} RAM chips.`;
export const AT_TEST = "what is at TEST";
export const THE_BOARD = "the board";
/** @type {(part: string) => string} */
export const thePart = (part) => `the ${part}`;
export const THE_BUZZER = "the buzzer";
/** @type {(maximum: number) => string} */
export const tooManyChainsMessage = (maximum) => `A board has at most ${maximum} chains.`;
export const ONE_MATRIX = "A board has one key matrix: give it more rows and columns.";
export const NO_KEYS = "The board has no keys.";
/** @type {(maximum: number) => string} */
export const tooManyRowsMessage = (maximum) => `A key matrix has at most ${maximum} rows.`;
export const TOO_FEW_ROWS = "A key matrix has at least one row; to remove it, delete the keys.";
/** @type {(chain: number) => string} */
export const noBitForRowMessage = (chain) => `Chain ${chain} has no bit for another row: give it another chip.`;
/** @type {(maximum: number) => string} */
export const tooManyColumnsMessage = (maximum) => `A key matrix has at most ${maximum} columns.`;
/** @type {(maximum: number, count: number) => string} */
export const tooManyLampsMessage = (maximum, count) => `A board has at most ${maximum} lamps; it has ${count}.`;
export const ONE_BUZZER = "A board can have only one buzzer: delete the present one first.";
export const TOO_FEW_DIGITS = "A display has a whole number of digits, at least 1.";
/** @type {(maximum: number) => string} */
export const multiplexedDigitsMessage = (maximum) => `A multiplexed display has 1 to ${maximum} digits.`;
/** @type {(place: string) => string} */
export const buzzerIsAt = (place) => `The buzzer is at ${place}: give it another line first.`;
/** @type {(line: string) => string} */
export const printerIsAt = (line) => `The printer is at ${line}: give it other lines first, in Board.`;
/** @type {(maximum: number) => string} */
export const tooManyChipsMessage = (maximum) => `A chain has at most ${maximum} chips.`;
export const TOO_FEW_CHIPS = "A chain has at least one chip; to remove it, delete the chain.";
/** @type {(bit: string) => string} */
export const bitInUse = (bit) => `${bit} is in use: wire the part there to another line first.`;

// --- drawing/board_lines.js ---
/** @type {(kind: string, number: number) => string} */
export const ofChain = (kind, number) => `the ${kind} of chain ${number}`;
/** @type {(target: string) => string} */
export const ofKeys = (target) => `${target} of the keys`;

// --- drawing/part_deletion.js ---
export const PROCESSOR_STAYS = "Every board has a processor.";
export const CHAIN_NEEDS_LINES = "A chain needs a clock line and a data line: wire it to another line, or delete the chain.";
export const LINE_STAYS = "A line is deleted only with its chip.";
/** @type {(bank: number, chip: number) => string} */
export const deleteChipFirst = (bank, chip) => `The chips of a bank are numbered from 0: delete RAM ${bank}.${chip} first.`;
export const DELETE_LAST_ROW = "The rows of the keys are numbered from 0: delete the last one first.";
/** @type {(count: number) => string} */
export const allLampsOf = (count) => `all ${count} lamps of its display`;

// --- drawing/board_drawing.js ---
export const CANNOT_EDIT = "The drawing cannot change a board's text that is written in this way; change it in Board.";
/** @type {(reason: string) => string} */
export const benchRejectsMessage = (reason) => `The bench rejects the board's text: ${reason}. The Board tab shows where.`;
/** @type {(name: string) => string} */
export const lineOfBoard = (name) => `line ${name}`;
/** @type {(pin: string, pins: string) => string} */
export const wireStarted = (pin, pins) => `Wire from ${pin}: it can end at ${pins}.`;
export const NO_WIRE = "No wire was drawn.";
export const NO_CHANGE = "No change.";
/** @type {(reason: string) => string} */
export const notDoneMessage = (reason) => `It was not done. ${reason}`;
export const UNDONE = "Undone.";
export const REDONE = "Redone.";
export const NOTHING_TO_UNDO = "There is nothing to undo.";
export const NOTHING_TO_REDO = "There is nothing to redo.";

// --- drawing/drawing_view.js ---
/**
 * The parts on the shelf: each part's label and description.
 * @type {Record<import("../core/drawing/drawing_actions.js").ShelfPart, [string, string]>}
 */
export const SHELF = {
  rom: ["ROM", "a 4001: 256 bytes of program, and a port of four output lines"],
  inputs: ["ROM with inputs", "a 4001 whose port reads four lines"],
  ram: ["RAM", "a 4002: 80 characters, and a port of four output lines"],
  chain: ["Shift register", "a chain of one 4003: ten bits, shifted by a clock line and a data line"],
  keys: ["Keys", "a matrix: rows driven by a chain, columns read by a ROM"],
  lamp: ["Lamp", "at the chosen output line, else at the next free one"],
  digit: ["Number display", "a display whose digits are numbers of four lines each"],
  segments: ["7 segments", "a display whose digits are seven lines each"],
  scanned: ["Multiplexed display", "multiplexed digits: seven lines for all of them, and one line for each"],
  button: ["Button", "at the processor's TEST pin; it springs back"],
  switch: ["Switch", "at the processor's TEST pin; it stays"],
  buzzer: ["Buzzer", "at the chosen output line, else at the next free one; each edge of its line makes a sound"],
};
export const NOT_APPLIED = "Not applied yet.";
export const SHOW_IN_BOARD = "Show in text";
export const INSERT_SCAN = "Insert code that scans these keys";

// --- drawing/selection_form.js ---
/** @type {(label: string) => string} */
export const lineFieldLabel = (label) => `${label} at`;
export const WHAT_IS_THERE = "what is there";
/** The kinds of ROM port lines: each kind's letter in the board's text and its description. */
export const DIRECTIONS = [["i", "an input"], ["0", "an output"], ["1", "an output that reads as 1"]];
/** @type {(line: number) => string} */
export const lineDirectionLabel = (line) => `line ${line} is`;
export const COPY = "Copy";
export const DELETE = "Delete";
/** @type {(chip: number) => string} */
export const romWithPort = (chip) => `ROM ${chip}, a 4001 with a port`;
/** @type {(chain: number) => string} */
export const chainOfChips = (chain) => `Chain ${chain} of 4003s`;
export const ANOTHER_COLUMN = "Another column";
export const KEYS = "Keys";
export const COPY_DISPLAY = "Copy the display";
/** @type {(count: number) => string} */
export const deleteLamps = (count) => `Delete its ${count} lamps`;
/** @type {(lamp: number) => string} */
export const lampTitle = (lamp) => `Lamp ${lamp}`;
export const THE_BUZZER_TITLE = "The buzzer";
/** @type {(chip: string) => string} */
export const ramWithPort = (chip) => `RAM ${chip}, a 4002 with a port`;
export const LAMP_HERE = "A lamp here";
export const BUZZER_HERE = "A buzzer here";
/** @type {(line: string, isInput: boolean) => string} */
export const lineTitle = (line, isInput) => `Line ${line}, an ${isInput ? "input" : "output"}`;
export const LOCATION_LABEL = "it is at";
export const ALL_LAMPS = "All lamps";
export const DELETE_ALL_LAMPS = "Delete all lamps";
/** @type {(kind: string) => string} */
export const atTest = (kind) => `The ${kind} at TEST`;
export const BOARD_TITLE = "The board";

// --- drawing/lamp_labels.js ---
/** @type {(lamp: string) => string} */
export const allDigits = (lamp) => `all digits: ${lamp}`;
