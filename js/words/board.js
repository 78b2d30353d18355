// Messages and labels about the front panel (lamps, keys, sound) and the board's wiring.

import { EYE_PERSISTENCE_CYCLES, EYE_PERSISTENCE_MS } from "../core/time/mcs4_time.js";

// --- board/board_keys.js ---
/** @type {(legend: string, row: number, column: number) => string} */
export const keyAt = (legend, row, column) => `key ${legend}, row ${row}, column ${column}`;
/** @type {(kind: string, legend: string) => string} */
export const keyAtTest = (kind, legend) => `${kind} ${legend}, at TEST`;
export const NO_KEYS = "This board has no keys.";
export const KEY_NAMING_HINT = " Lines such as # row 0: 7 8 9 in the board's text give them names.";
/** @type {(naming: string) => string} */
export const keysHint = (naming) => `Shift-click holds a key. Paused: a click toggles it.${naming}`;

// --- `board/face.js` ---
export const A_SEGMENT = "a segment";
export const A_COLUMN = "a column";
export const A_DIGIT = "a digit";
export const A_ROW = "a row";
/** @type {(count: string) => string} */
export const andMore = (count) => `And ${count} more.`;

// --- board/front_view.js ---
export const LAMPS_AND_KEYS = "Lamps and keys";
/** @type {(milliseconds: number) => string} */
export const averagedBrightness = (milliseconds) => (
  `Brightness is averaged over ${milliseconds} ms, as by the eye.`);
export const AT_INSTANT = "Paused: lamps show this instant.";
/** @type {(line: number, error: string) => string} */
export const boardErrorInLine = (line, error) => `line ${line} of the board's text: ${error}`;

// --- board/lamps_view.js ---
/** @type {(name: string) => string} */
export const litLamp = (name) => `${name}, lit`;
/** @type {(name: string) => string} */
export const darkLamp = (name) => `${name}, dark`;
/** @type {(row: number, column: number) => string} */
export const rowAndColumn = (row, column) => `row ${row}, column ${column}`;
/** @type {(number: number, count: number) => string} */
export const lampOfRow = (number, count) => `lamp ${number} of ${count}`;
/** @type {(column: string, row: string) => string} */
export const linesOfColumnAndRow = (column, row) => `${column} and ${row}`;
export const LAMPS = "lamps";

// --- board/sound.js ---
export const NO_SOUND = "This browser has no sound (Web Audio). In a terminal, mcs4 wave --wav makes a sound file.";
export const SILENT = "silent: there is sound only in real time";
/** @type {(name: string) => string} */
export const soundOf = (name) => `Sound of ${name}`;

// --- board/wiring.js ---
/** @type {(chain: number) => string} */
export const clocksChain = (chain) => `clocks chain ${chain}`;
/** @type {(chain: number) => string} */
export const dataOfChain = (chain) => `is the data of chain ${chain}`;
/** @type {(lamp: number) => string} */
export const lightsLamp = (lamp) => `lights lamp ${lamp}`;
export const SOUNDS_BUZZER = "sounds the buzzer";
/** @type {(row: number) => string} */
export const drivesRow = (row) => `drives row ${row} of the keys`;
/** @type {(column: number) => string} */
export const readsColumn = (column) => `reads column ${column} of the keys`;
export const AND = " and ";
export const NOT_USED = "is not used";
export const PROCESSOR_ROLE = "it reads the ROMs' bytes and ports, writes the ports, and reads and writes RAM";
/** @type {(kind: string, name: string) => string} */
export const testConnectedTo = (kind, name) => `its input TEST is connected to the ${kind} ${name}`;
export const TEST_IS_ONLY_INPUT = "TEST is only its input";
/** @type {(kind: string, name: string, level: number) => string} */
export const drivesTest = (kind, name, level) => `the ${kind} ${name} sets TEST to ${level} while it is pressed`;
/** @type {(line: string, isInput: boolean) => string} */
export const lineOfPort = (line, isInput) => `line ${line}, ${isInput ? "an input" : "an output"},`;
/** @type {(isInput: boolean, line: number) => string} */
export const portPin = (isInput, line) => `${isInput ? "in" : "out"} ${line}`;
/** @type {(bit: number) => string} */
export const bitPin = (bit) => `bit ${bit}`;
export const CLOCK_PIN = "clock";
export const DATA_PIN = "data";
/** @type {(row: number) => string} */
export const rowPin = (row) => `row ${row}`;
/** @type {(column: number) => string} */
export const columnPin = (column) => `column ${column}`;
/** @type {(lamp: number) => string} */
export const lampPin = (lamp) => `lamp ${lamp}`;
/** @type {(chip: number) => string} */
export const romTitle = (chip) => `ROM ${chip} · 4001`;
/** @type {(bank: number, chip: number) => string} */
export const ramTitle = (bank, chip) => `RAM ${bank}.${chip} · 4002`;
/** @type {(clock: string) => string} */
export const clockIs = (clock) => `its clock is ${clock}`;
/** @type {(data: string) => string} */
export const dataIs = (data) => `its data is ${data}`;
/** @type {(chain: number, chips: number) => string} */
export const chainTitle = (chain, chips) => `Chain ${chain} · ${chips} × 4003`;
/** @type {(label: string, line: string) => string} */
export const drivenBy = (label, line) => `${label} is driven by ${line}`;
/** @type {(label: string, line: string) => string} */
export const readAt = (label, line) => `${label} is read at ${line}`;
/** @type {(rows: number, columns: number) => string} */
export const keysTitle = (rows, columns) => `Keys · ${rows} × ${columns}`;
/** @type {(label: string, line: string) => string} */
export const labelIsAt = (label, line) => `${label} is at ${line}`;
/** @type {(count: number) => string} */
export const lampsTitle = (count) => `Lamps · ${count}`;
/** @type {(name: string, place: string) => string} */
export const soundsAtEdges = (name, place) => `${name} sounds at each edge of ${place}`;
export const BUZZER = "Buzzer";

// --- board/wiring_view.js ---
export const PARTS_AND_WIRES = "The board's parts and wires";
export const TEST_PIN = "the TEST pin";
/** @type {(number: number) => string} */
export const pinSuffix = (number) => ` (pin ${number})`;
/** @type {(connections: string) => string} */
export const wiredTo = (connections) => `wired to ${connections}`;
export const NOT_WIRED = "not wired";
/** @type {(line: string) => string} */
export const wiredAt = (line) => `at ${line}`;

// --- board/lamp_answers.js ---
/** @type {(board: string) => string} */
export const noDisplayMessage = (board) => `${board} has no display: a comment \`# display 0: 4 digits\` makes one`;
/** @type {(line: number, answer: string) => string} */
export const answerIsRefusalMessage = (line, answer) => `line ${line} of the answers is a refusal: ${answer}; mcs4 explain says why`;
/** @type {(line: number, board: string) => string} */
export const answerShowsInstantMessage = (line, board) => (
  `line ${line} of the answers has the lamps at an instant, and the digits of ${board} are multiplexed; `
  + `\`trace ${EYE_PERSISTENCE_CYCLES} lamps\` reports what is perceived in ${EYE_PERSISTENCE_MS} ms`);
/** @type {(line: number, count: number, board: string, needed: number) => string} */
export const tooFewLampsMessage = (line, count, board, needed) => (
  `line ${line} of the answers has ${count} lamps, and the display of ${board} needs ${needed}`);
export const ENDS_WITHIN_TRACE = "the answers end in the middle of an answer to `trace`";
export const NO_LAMPS_SHOWN = "no answer shows the lamps";
