// Adds parts to a board text and connects them to free signal lines. If there are too few free lines, adds chips with more lines. Throws
// `ImpossibleAction` if a part cannot be added.

import { formatQuantity, indices } from "../bench/numbers.js";
import { Face } from "../board/face.js";
import { printerLines } from "../board/face_board.js";
import { findLimit } from "../board/face_words.js";
import { BITS_PER_CHIP, MAX_COLUMNS, MAX_PARTS, VALUE_RANGES } from "../bench/board_form.js";
import { addGroup, setLampColour, setLineText } from "./face_edits.js";
import { BUZZER, parseChainBit, listFreeLines, mapInputsToLines } from "./board_lines.js";
import { addPart, appendElement, setValue, formatToml } from "./part_edits.js";
import { ImpossibleAction } from "./edited_board.js";
import * as say from "../../words/drawing.js";

/**
 * @typedef {import("./edited_board.js").EditedBoard} EditedBoard
 * @typedef {import("./board_lines.js").Board} Board
 */

/** The port masks of a ROM with four outputs that RDR reads as 0, and of a ROM with four inputs. */
export const OUTPUT_MASK = "0000";
export const INPUT_MASK = "iiii";
/** The number of signal lines of a BCD digit (`digit`) and of a seven-segment digit (`segments`). */
const LINES_PER_DIGIT = { digit: 4, segments: 7 };

/**
 * Returns the lowest unused number; undefined if all numbers are used.
 * @param {number[]} usedNumbers
 * @param {number} count the numbers are 0 to `count` - 1
 */
function findFreeNumber(usedNumbers, count) {
  return indices(count).find((number) => !usedNumbers.includes(number));
}

/**
 * Adds a ROM; returns its name. Throws `ImpossibleAction` if the board has the maximum number of ROMs.
 * @param {EditedBoard} editedBoard
 * @param {string} port the port mask
 */
export function addRom(editedBoard, port) {
  const chip = findFreeNumber(editedBoard.board.roms.map((rom) => Number(rom.chip)), MAX_PARTS.rom);
  if (chip === undefined) throw new ImpossibleAction(say.tooManyRomsMessage(MAX_PARTS.rom));
  editedBoard.edit(addPart(editedBoard.draft, "rom", { chip, port }));
  return `rom ${chip}`;
}

/**
 * Adds a RAM chip, in the first bank with fewer than four chips or in a new bank. Returns the name of the chip.
 * @param {EditedBoard} editedBoard
 */
export function addRam(editedBoard) {
  const { banks } = editedBoard.board;
  const { to: maxChips } = VALUE_RANGES["ram.chips"];
  const bankWithSpace = banks.find(({ chips }) => chips < maxChips);
  if (bankWithSpace) {
    const entry = editedBoard.draft.partByNumber("ram", bankWithSpace.bank);
    editedBoard.edit([setValue(editedBoard.draft, entry, "chips", bankWithSpace.chips + 1)]);
    return `ram ${bankWithSpace.bank}.${bankWithSpace.chips}`;
  }
  const bank = findFreeNumber(banks.map((ramBank) => ramBank.bank), MAX_PARTS.ram);
  if (bank === undefined) throw new ImpossibleAction(say.tooManyRamChipsMessage(MAX_PARTS.ram, maxChips));
  editedBoard.edit(addPart(editedBoard.draft, "ram", { bank, chips: 1 }));
  return `ram ${bank}.0`;
}

/**
 * Adds a part that another new part needs, and records its name for the message; returns the name.
 * @param {EditedBoard} editedBoard
 * @param {() => string} add adds the part and returns its name
 */
function addRequiredPart(editedBoard, add) {
  const part = add();
  editedBoard.addedParts.push(formatPartName(part));
  return part;
}

/**
 * Returns the name of a part for messages: `ROM 0`, `RAM 0.1`, `chain 0`, `lamp 3` or `the keys`.
 * @param {string} part
 */
export function formatPartName(part) {
  if (part === "test") return say.AT_TEST;
  if (part === "title") return say.THE_BOARD;
  if (part === "keys" || part === "lamps") return say.thePart(part);
  if (part === BUZZER || part === "buzzer") return say.THE_BUZZER;
  return part.replace(/^(rom|ram) /, (kind) => kind.toUpperCase());
}

/**
 * Adds a ROM for the program if the board has none.
 * @param {EditedBoard} editedBoard
 */
export function ensureRom(editedBoard) {
  if (editedBoard.board.roms.length === 0) addRequiredPart(editedBoard, () => addRom(editedBoard, OUTPUT_MASK));
}

/**
 * Adds parts until the board has enough free lines of the required kind; returns the names of the first `count` such lines.
 * @param {EditedBoard} editedBoard
 * @param {number} count the number of lines
 * @param {(board: Board) => string[]} findLines returns the free lines of the required kind
 * @param {() => string} addLines adds a part with such lines, and returns its name
 */
function ensureLines(editedBoard, count, findLines, addLines) {
  while (findLines(editedBoard.board).length < count) addRequiredPart(editedBoard, addLines);
  return findLines(editedBoard.board).slice(0, count);
}

/**
 * Returns the names of the port lines that are outputs and free.
 * @param {Board} board
 */
function listFreeOutputs(board) {
  return listFreeLines(board).filter(({ kind, isInput }) => kind !== "bit" && !isInput).map(({ name }) => name);
}

/**
 * Returns the names of the free input lines.
 * @param {Board} board
 */
function listFreeInputs(board) {
  return listFreeLines(board).filter(({ isInput }) => isInput).map(({ name }) => name);
}

/**
 * Returns the names of the free lines for lamps: first RAM port lines, then ROM port lines, then chain bits.
 * @param {Board} board
 */
function listFreeLampLines(board) {
  const outputLines = listFreeLines(board).filter(({ isInput }) => !isInput);
  return ["ram", "rom", "bit"].flatMap((wantedKind) => outputLines.filter(({ kind }) => kind === wantedKind)).map(({ name }) => name);
}

/**
 * Adds a chain; returns its name. Throws `ImpossibleAction` if the board has the maximum number of chains.
 * @param {EditedBoard} editedBoard
 * @param {number} chips the number of chips
 */
export function addChain(editedBoard, chips = 1) {
  const chainNumber = editedBoard.board.chains.length;
  if (chainNumber >= MAX_PARTS.chain) throw new ImpossibleAction(say.tooManyChainsMessage(MAX_PARTS.chain));
  const [clock, data] = ensureLines(editedBoard, 2, listFreeOutputs, () => addRom(editedBoard, OUTPUT_MASK));
  editedBoard.edit(addPart(editedBoard.draft, "chain", { clock, data, chips }));
  return `chain ${chainNumber}`;
}

/**
 * Finds `count` consecutive free bits in a chain. Returns the chain number and the number of the first bit; null if no chain has such bits.
 * @param {Board} board
 * @param {number} count
 */
function findFreeBits(board, count) {
  const freeLineNames = new Set(listFreeLines(board).map(({ name }) => name));
  for (const [chain, { chips }] of board.chains.entries()) {
    const possibleStarts = indices(Math.max(0, BITS_PER_CHIP * chips - count + 1));
    const first = possibleStarts.find((bit) => indices(count).every((index) => freeLineNames.has(`chain${chain}.${bit + index}`)));
    if (first !== undefined) return { chain, first };
  }
  return null;
}

/**
 * Finds `count` consecutive free bits in a chain; adds a chain if necessary. Returns the chain number and the number of the first bit.
 * @param {EditedBoard} editedBoard
 * @param {number} count
 */
function ensureBits(editedBoard, count) {
  if (!findFreeBits(editedBoard.board, count)) addRequiredPart(editedBoard, () => addChain(editedBoard, Math.ceil(count / BITS_PER_CHIP)));
  return /** @type {{ chain: number, first: number }} */ (findFreeBits(editedBoard.board, count));
}

/**
 * Adds a key matrix with one row, and with a column for each free input line (at most four columns). Returns the name of the part.
 * @param {EditedBoard} editedBoard
 */
export function addKeys(editedBoard) {
  if (editedBoard.board.matrix) throw new ImpossibleAction(say.ONE_MATRIX);
  ensureRom(editedBoard);
  const { chain, first } = ensureBits(editedBoard, 1);
  if (listFreeInputs(editedBoard.board).length === 0) addRequiredPart(editedBoard, () => addRom(editedBoard, INPUT_MASK));
  const columns = listFreeInputs(editedBoard.board).slice(0, 4);
  editedBoard.edit(addPart(editedBoard.draft, "keys", { chain, first, rows: 1, columns }));
  return "keys";
}

/**
 * Sets the number of key rows; returns `keys`, the part that changed. Throws `ImpossibleAction` if there is no key matrix, if the number is
 * out of range, or if the chain has too few bits.
 * @param {EditedBoard} editedBoard
 * @param {number} rows
 */
export function setRows(editedBoard, rows) {
  const { matrix, chains } = editedBoard.board;
  if (!matrix) throw new ImpossibleAction(say.NO_KEYS);
  const { from, to } = VALUE_RANGES["keys.rows"];
  if (rows > to) throw new ImpossibleAction(say.tooManyRowsMessage(to));
  if (rows < from) throw new ImpossibleAction(say.TOO_FEW_ROWS);
  if (matrix.first + rows > BITS_PER_CHIP * chains[matrix.chain].chips) {
    throw new ImpossibleAction(say.noBitForRowMessage(matrix.chain));
  }
  editedBoard.edit([setValue(editedBoard.draft, editedBoard.draft.requirePart("keys", 0), "rows", rows)]);
  return "keys";
}

/**
 * Adds a key column; returns `keys`, the part that changed. Throws `ImpossibleAction` if there is no key matrix, or if it has the maximum
 * number of columns.
 * @param {EditedBoard} editedBoard
 */
export function addColumn(editedBoard) {
  const { matrix } = editedBoard.board;
  if (!matrix) throw new ImpossibleAction(say.NO_KEYS);
  if (matrix.columns.length >= MAX_COLUMNS) throw new ImpossibleAction(say.tooManyColumnsMessage(MAX_COLUMNS));
  const [line] = ensureLines(editedBoard, 1, listFreeInputs, () => addRom(editedBoard, INPUT_MASK));
  const { draft } = editedBoard;
  editedBoard.edit(appendElement(draft, draft.requireKey(draft.requirePart("keys", 0), "columns").value, formatToml(line)));
  return "keys";
}

/**
 * Throws `ImpossibleAction` if `count` more lamps would exceed the maximum.
 * @param {EditedBoard} editedBoard
 * @param {number} count
 */
function checkLampCount({ board }, count) {
  if (board.lamps.length + count > MAX_PARTS.lamp) throw new ImpossibleAction(say.tooManyLampsMessage(MAX_PARTS.lamp, board.lamps.length));
}

/**
 * Adds a lamp to each of several signal lines.
 * @param {EditedBoard} editedBoard
 * @param {string[]} lines the names of the lines
 */
function addLamps(editedBoard, lines) {
  for (const line of lines) editedBoard.edit(addPart(editedBoard.draft, "lamp", { line }));
}

/**
 * Adds a lamp; returns its name.
 * @param {EditedBoard} editedBoard
 * @param {string} [line] the signal line; "" selects the next free line
 * @param {string} [colour] the colour; "" selects the default colour
 */
export function addLamp(editedBoard, line = "", colour = "") {
  checkLampCount(editedBoard, 1);
  ensureRom(editedBoard);
  const lampNumber = editedBoard.board.lamps.length;
  const hasRam = editedBoard.board.banks.length > 0;
  // If the board has no RAM, add a RAM chip for its first lamp, so that later lamps can use the same port.
  if (!line && !hasRam && lampNumber === 0) addRequiredPart(editedBoard, () => addRam(editedBoard));
  addLamps(editedBoard, [line || ensureLines(editedBoard, 1, listFreeLampLines, () => addRam(editedBoard))[0]]);
  if (colour) editedBoard.edit(setLampColour(editedBoard.draft, lampNumber, colour));
  return `lamp ${lampNumber}`;
}

/**
 * Adds a buzzer; returns its name. Throws `ImpossibleAction` if the board already has one.
 * @param {EditedBoard} editedBoard
 * @param {string} [line] the signal line; "" selects the next free port line
 */
export function addBuzzer(editedBoard, line = "") {
  if (new Face(editedBoard.text).buzzer) throw new ImpossibleAction(say.ONE_BUZZER);
  ensureRom(editedBoard);
  const output = line || ensureLines(editedBoard, 1, listFreeOutputs, () => addRam(editedBoard))[0];
  editedBoard.edit(setLineText(editedBoard.draft, "buzzer", output, "buzzer"));
  return BUZZER;
}

/**
 * Adds a display without multiplexing; returns the name of its first lamp. Each BCD digit uses a RAM port. All seven-segment digits use the
 * bits of one chain.
 * @param {EditedBoard} editedBoard
 * @param {"digit" | "segments"} kind
 * @param {number} digits
 */
export function addDisplay(editedBoard, kind, digits) {
  if (!Number.isInteger(digits) || digits < 1) throw new ImpossibleAction(say.TOO_FEW_DIGITS);
  checkLampCount(editedBoard, digits * LINES_PER_DIGIT[kind]);
  ensureRom(editedBoard);
  const firstLamp = editedBoard.board.lamps.length;
  if (kind === "digit") for (let digit = 0; digit < digits; digit++) addLamps(editedBoard, ensureDigitPort(editedBoard));
  else addLamps(editedBoard, ensureSegmentBits(editedBoard, digits * LINES_PER_DIGIT.segments));
  // This literal is not a message but a comment in the board text, in the syntax of `tools/lib/face.txt`.
  // eslint-disable-next-line no-restricted-syntax
  const displayText = `${formatQuantity(digits, "digit")}${kind === "segments" ? " of 7 segments" : ""}`;
  editedBoard.edit(addGroup(editedBoard.draft, "display", firstLamp, displayText));
  return `lamp ${firstLamp}`;
}

/**
 * Adds a multiplexed display with seven segment lines, shared by all digits, and one line per digit. Returns the name of its first lamp.
 * @param {EditedBoard} editedBoard
 * @param {number} digits
 */
export function addMultiplexedDisplay(editedBoard, digits) {
  const maxDigits = findLimit("scanned");
  if (!Number.isInteger(digits) || digits < 1 || digits > maxDigits) throw new ImpossibleAction(say.multiplexedDigitsMessage(maxDigits));
  const lineCount = LINES_PER_DIGIT.segments + digits;
  checkLampCount(editedBoard, lineCount);
  ensureRom(editedBoard);
  const firstLamp = editedBoard.board.lamps.length;
  /** @type {(board: Board) => string[]} */
  const findRamLines = (board) => listFreeLampLines(board).filter((line) => line.startsWith("ram"));
  addLamps(editedBoard, ensureLines(editedBoard, lineCount, findRamLines, () => addRam(editedBoard)));
  // This literal is not a message but a comment in the board text, in the syntax of `tools/lib/face.txt`.
  // eslint-disable-next-line no-restricted-syntax
  const displayText = `${formatQuantity(digits, "digit")} of 7 segments scanned by ${firstLamp + LINES_PER_DIGIT.segments}`;
  editedBoard.edit(addGroup(editedBoard.draft, "display", firstLamp, displayText));
  return `lamp ${firstLamp}`;
}

/**
 * Returns the line names of a free RAM port, line 3 first; adds a RAM chip if necessary.
 * @param {EditedBoard} editedBoard
 */
function ensureDigitPort(editedBoard) {
  const freeNames = new Set(listFreeOutputs(editedBoard.board));
  for (const { bank, chips } of editedBoard.board.banks) {
    for (const chip of indices(chips)) {
      const lines = [3, 2, 1, 0].map((line) => `ram${bank}.${chip}.${line}`);
      if (lines.every((line) => freeNames.has(line))) return lines;
    }
  }
  const addedChip = addRequiredPart(editedBoard, () => addRam(editedBoard)).replace(" ", "");
  return [3, 2, 1, 0].map((line) => `${addedChip}.${line}`);
}

/**
 * Returns the line names of consecutive free chain bits for segments; adds a chain if necessary.
 * @param {EditedBoard} editedBoard
 * @param {number} count
 */
function ensureSegmentBits(editedBoard, count) {
  const { chain, first } = ensureBits(editedBoard, count);
  return indices(count).map((bit) => `chain${chain}.${first + bit}`);
}

/**
 * Throws `ImpossibleAction` if the buzzer or the printer would lose its output line.
 * @param {EditedBoard} editedBoard
 * @param {(line: string) => boolean} isLost returns whether a line is no longer an output after the action
 */
export function checkFrontPanelOutputs({ text }, isLost) {
  const { buzzer, printer } = new Face(text);
  if (buzzer && isLost(buzzer.place)) throw new ImpossibleAction(say.buzzerIsAt(buzzer.place));
  const line = printer && printerLines(printer).find(isLost);
  if (line) throw new ImpossibleAction(say.printerIsAt(line));
}

/**
 * Sets the number of chips in a chain; returns the chain name. Throws `ImpossibleAction` if the number is out of range, or if a removed bit
 * is in use.
 * @param {EditedBoard} editedBoard
 * @param {number} chain
 * @param {number} chips
 */
export function setChips(editedBoard, chain, chips) {
  const { from, to } = VALUE_RANGES["chain.chips"];
  if (chips > to) throw new ImpossibleAction(say.tooManyChipsMessage(to));
  if (chips < from) throw new ImpossibleAction(say.TOO_FEW_CHIPS);
  /** @type {(line: string) => boolean} */
  const isRemovedBit = (line) => line.startsWith(`chain${chain}.`) && parseChainBit(line).bit >= BITS_PER_CHIP * chips;
  checkFrontPanelOutputs(editedBoard, isRemovedBit);
  const usedLine = [...mapInputsToLines(editedBoard.board).values()].find(isRemovedBit);
  if (usedLine) throw new ImpossibleAction(say.bitInUse(usedLine));
  editedBoard.edit([setValue(editedBoard.draft, editedBoard.draft.requirePart("chain", chain), "chips", chips)]);
  return `chain ${chain}`;
}
