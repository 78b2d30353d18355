// Creates the lines of a recording: the signal lines of a board, its ports as numbers, decoders, and requested values such as registers.
// The page and `mcs4 wave` use the same names in the same order.

import { BITS_PER_CHIP } from "../bench/board_form.js";
import { parseNumber, indices } from "../bench/numbers.js";
import { parsePlace } from "../conditions/places.js";
import { Face } from "../board/face.js";
import { describeCharacter } from "../debug/machine_state.js";
import * as say from "../../words/waves.js";

/**
 * @typedef {import("../bench/answers.js").Board} Board
 * @typedef {import("../board/face.js").FaceText} FaceText
 * @typedef {"level" | "key" | "test" | "value" | "port" | "shift" | "scan" | "pc" | "label"} WaveKind
 *
 * A line of a recording. `title` is its name in the board text; "" for none. `group` names the part of the board that has the line. `width`
 * is its number of bits.
 *
 * The meaning of `places` depends on the kind. Level: the signal line of the board. Key: the row and column of the key. Value: the `trace`
 * places of its digits, highest digit first. Scan: the names of the keys, row by row.
 *
 * `members` are the indices of the lines from which the value of a port or decoder is computed. Port: its lines, lowest first. Shift
 * register: its clock, its data and its bits. Scan: the columns, then the rows, of the key matrix; `columns` is the number of columns.
 * @typedef {{ name: string, title: string, group: string, kind: WaveKind, places: string[], members: number[], width: number,
 *   columns: number }} WaveLine
 */

/** Matches a name in the board text that is valid in a VCD file. */
const VCD_NAME = /^[A-Za-z0-9_]+$/;
/** The maximum number of bits in a line that is shown as a number. JavaScript represents such a number exactly. */
const MAX_BITS = 50;

/**
 * Creates a line with default values.
 * @param {string} name
 * @param {string} group
 * @param {WaveKind} kind
 * @param {Partial<WaveLine>} details
 * @returns {WaveLine}
 */
function createLine(name, group, kind, details = {}) {
  return { name, title: "", group, kind, places: [], members: [], width: 1, columns: 0, ...details };
}

/**
 * Returns the name and title of a lamp or key. A name in the board text that is invalid in a VCD file is used only as the title.
 * @param {string} group
 * @param {string} ending the number of the lamp or key, for a line without a valid name
 * @param {FaceText | undefined} faceText
 */
function chooseLineNames(group, ending, faceText) {
  const text = faceText ? faceText.text : "";
  return VCD_NAME.test(text) ? { name: `${group}.${text}`, title: "" } : { name: `${group}${ending}`, title: text };
}

/**
 * Returns the lines of a port or chain: `name.0`, `name.1` and so on.
 * @param {string} group
 * @param {number} count
 * @param {Face} face
 * @returns {WaveLine[]}
 */
function createLevelLines(group, count, face) {
  const port = face.ports.get(group);
  return indices(count).map((line) => (
    createLine(`${group}.${line}`, group, "level", { places: [`${group}.${line}`], title: port ? say.lineOf(port.text, line) : "" })));
}

/**
 * Returns the signal lines of the ROM ports, RAM ports and chains of a board.
 * @param {Board} board
 * @param {Face} face
 */
function createChipLines({ roms, banks, chains }, face) {
  const chips = roms.map(({ chip }) => Number(chip)).sort((one, other) => one - other);
  const sortedBanks = [...banks].sort((one, other) => one.bank - other.bank);
  return [
    ...chips.flatMap((chip) => createLevelLines(`rom${chip}`, 4, face)),
    ...sortedBanks.flatMap(({ bank, chips: count }) => indices(count).flatMap((chip) => createLevelLines(`ram${bank}.${chip}`, 4, face))),
    ...chains.flatMap(({ chips: count }, chain) => createLevelLines(`chain${chain}`, BITS_PER_CHIP * count, face)),
  ];
}

/**
 * Returns the lines for the lamps and keys of a board.
 * @param {Board} board
 * @param {Face} face
 */
function createFrontPanelLines({ lamps, rows, columns }, face) {
  const lines = lamps.map((place, index) => {
    const { name, title } = chooseLineNames("lamp", String(index), face.lamps.get(index));
    return createLine(name, "lamps", "level", { places: [place], title });
  });
  for (const row of indices(rows)) {
    for (const column of indices(columns)) {
      const key = `${row}.${column}`;
      const { name, title } = chooseLineNames("key", key, face.keys.get(`${row} ${column}`));
      lines.push(createLine(name, "keys", "key", { places: [key], title }));
    }
  }
  return lines;
}

/**
 * Returns lines that show the ports and chains as numbers. Bit k of a number is line k of the port or chain.
 * @param {WaveLine[]} lines the signal lines of the board
 * @param {Face} face
 */
function createPortLines(lines, face) {
  /** @type {Map<string, number[]>} */
  const ports = new Map();
  lines.forEach(({ group, kind }, index) => {
    if (kind === "level" && group !== "lamps") ports.set(group, [...(ports.get(group) || []), index]);
  });
  return [...ports].filter(([, { length }]) => length <= MAX_BITS).map(([group, members]) => {
    const faceText = face.ports.get(group);
    return createLine(`${group}[${members.length - 1}:0]`, "numbers", "port", { members, width: members.length,
    title: faceText ? faceText.text : "" });
  });
}

/**
 * Returns the decoders of a board: one for each chain, and one for the key matrix.
 * @param {Board} board
 * @param {WaveLine[]} lines the signal lines of the board
 * @param {Face} face
 */
function createDecoderLines({ chains, matrix }, lines, face) {
  const indicesOf = (/** @type {string[]} */ places) => places.map((place) => lines.findIndex(({ name }) => name === place));
  const bitsOf = (/** @type {number} */ chain, /** @type {number} */ first, /** @type {number} */ count) => (
    indices(count).map((bit) => `chain${chain}.${first + bit}`));
  const decoders = chains.map(({ clock, data, chips }, index) => {
    const bits = bitsOf(index, 0, BITS_PER_CHIP * chips);
    const members = indicesOf([clock, data, ...bits]);
    return createLine(`shift.chain${index}`, "decoders", "shift", { title: say.shiftRegisterTitle(index), members, width: bits.length });
  });
  if (!matrix) return decoders;
  const { chain, first, rows, columns } = matrix;
  const places = indices(rows).flatMap((row) => columns.map((_, column) => {
    const faceText = face.keys.get(`${row} ${column}`);
    return faceText ? faceText.text : `${row}.${column}`;
  }));
  const members = indicesOf([...columns, ...bitsOf(chain, first, rows)]);
  return [...decoders, createLine("scan.keys", "decoders", "scan",
    { title: say.KEY_SCAN, places, members, width: members.length, columns: columns.length })];
}

/** Matches the name of a place that can be recorded as a value. */
const VALUE_PLACE = /^(acc|cy|dcl|src|r\d+|p\d|(ram|st)\..*)$/;
const DIGIT_WIDTH = 4;
const PAIR_WIDTH = 8;
/** @type {Record<string, number>} the widths in bits of single values that are not four bits wide */
const WIDTHS = { cy: 1, dcl: 3, src: 8 };

/**
 * Returns the line for a requested value: a register, a pair, a RAM nibble or a status nibble. Returns null for any other text, and if the
 * board does not have the register or nibble.
 * @param {string} text
 * @param {Board} board
 * @returns {WaveLine | null}
 */
export function createValueLine(text, board) {
  const place = parsePlace(text);
  const places = place && VALUE_PLACE.test(place.name) ? place.probesOn(board) : [];
  if (!place || places.length === 0) return null;
  const [word, bank, byteOrRegister] = place.name.split(".");
  const isMemory = word === "ram" || word === "st";
  const title = word === "src" ? say.SRC_OF_ROMS : word === "ram" ? say.inBank(bank, describeCharacter(parseNumber(byteOrRegister)))
    : isMemory ? say.STATUS_CHARACTER : "";
  const width = /^p\d$/.test(word) ? PAIR_WIDTH : WIDTHS[word] || DIGIT_WIDTH;
  return createLine(place.name, isMemory ? say.ramGroup(bank) : "registers", "value", { places, width, title });
}

/** The names of all registers and pairs. */
export const REGISTER_NAMES = [
  "acc", "cy", ...indices(16).map((register) => `r${register}`), ...indices(8).map((pair) => `p${pair}`), "dcl", "src",
];

/**
 * Returns the names of all RAM nibbles on a board, including status nibbles.
 * @param {Board} board
 */
export function listNibbleNames({ banks }) {
  return banks.flatMap(({ bank, chips }) => [
    ...indices(chips * 64).map((index) => `ram.${bank}.0x${index.toString(16).toUpperCase().padStart(2, "0")}`),
    ...indices(chips * 16).map((index) => `st.${bank}.${index >> 2}.${index & 3}`),
  ]);
}

/**
 * Returns the lines of a board. Their order is: ROMs, RAM chips, chains, lamps, keys, TEST, ports as numbers, decoders, requested values,
 * the program counter. If the program labels are known, the label is the last line.
 * @param {Board} board
 * @param {string} text the board text, for the names
 * @param {boolean} hasLabels true if the program labels are known
 * @param {string[]} [values] the names of the requested values
 * @returns {WaveLine[]}
 */
export function createBoardLines(board, text, hasLabels, values = []) {
  const face = new Face(text);
  const bits = [...createChipLines(board, face), ...createFrontPanelLines(board, face), createLine("test", "test", "test")];
  const valueLines = values.flatMap((name) => createValueLine(name, board) || []);
  const counter = createLine("pc", "pc", "pc", { width: 12 });
  const labels = hasLabels ? [createLine("label", "label", "label", { width: 16 })] : [];
  return [...bits, ...createPortLines(bits, face), ...createDecoderLines(board, bits, face), ...valueLines, counter, ...labels];
}

/**
 * Returns whether the page draws a line as boxes that contain its values. The page draws single bits as levels instead.
 * @param {WaveLine} line
 */
export function isDrawnAsBoxes({ kind, width }) {
  return kind === "pc" || kind === "label" || width > 1;
}
