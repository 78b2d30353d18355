// Builds the rows of the panel screen. The top rows show the session, whether time is running, the display, the registers, and the source
// at the program counter. Below the top rows, RAM, the front panel and the listing are side by side. The last two rows are a message and
// the help for keys. A row consists of text pieces. A piece that shows a lamp has the colour and the brightness level of the lamp.
// js/node/panel_terminal.mjs writes the rows to the terminal.

import { hex, indices } from "../bench/numbers.js";
import { printoutLines } from "../board/printout_lines.js";
import { escapeControls } from "../text/control_escapes.js";
import { expandTabs } from "../text/tab_expansion.js";
import { LARGE_DIGIT_ROWS, largeDigitRows } from "./large_digits.js";
import { buildLampRows, formatCell } from "./lamp_rows.js";
import { CHIP_ROWS } from "./panel_snapshot.js";
import { notInSourceMessage } from "../../words/machine.js";
import * as say from "../../words/panel.js";

/**
 * @typedef {import("../board/board_keys.js").BoardKey} BoardKey
 * @typedef {import("./terminal_panel.js").Panel} Panel
 *
 * @typedef {{ rows: number, columns: number }} ScreenSize the size of the terminal, in characters
 * @typedef {{ text: string, colour: string, level: number }} Piece a piece of text; `colour` is "" if it shows no lamp that is on
 * @typedef {{ pieces: Piece[], isInverse: boolean }} ScreenRow
 */

/** The minimum size of the terminal, in characters. */
export const MIN_SIZE = { rows: 24, columns: 80 };
/** The number of rows above RAM, the front panel and the listing. */
const TOP_ROWS = 10;
/** The number of rows above the middle part (RAM, front panel and listing) and below it. */
const FIXED_ROWS = TOP_ROWS + 2;
/** The widths of RAM and of the front panel, in characters. */
const RAM_WIDTH = 28;
const FRONT_PANEL_WIDTH = 24;
/** The minimum width of a key in characters. */
const MIN_KEY_WIDTH = 3;
/** The minimum number of rows for the printout. */
const MIN_PRINTOUT_ROWS = 2;
/** The maximum number of characters that are shown as large digits. */
const MAX_LARGE_CHARACTERS = 18;
/** The minimum width of the large digits, in terminal columns. The display text is to the right of them. */
const LARGE_DIGITS_WIDTH = 58;

/** @type {(text: string) => Piece} creates a piece that shows no lamp */
const makePlainPiece = (text) => ({ text, colour: "", level: 0 });

/**
 * Returns a row of pieces, cut or padded to a width in characters.
 * @param {Piece[]} pieces
 * @param {number} width
 */
function fitToWidth(pieces, width) {
  let remainingWidth = width;
  const cutPieces = pieces.map((piece) => {
    const text = [...piece.text].slice(0, remainingWidth).join("");
    remainingWidth -= [...text].length;
    return { ...piece, text };
  });
  return remainingWidth > 0 ? [...cutPieces, makePlainPiece(" ".repeat(remainingWidth))] : cutPieces;
}

/**
 * Returns whether a terminal is large enough for the panel.
 * @param {ScreenSize} size
 */
export function fitsPanel({ rows, columns }) {
  return rows >= MIN_SIZE.rows && columns >= MIN_SIZE.columns;
}

/**
 * Returns the number of rows in the middle part (RAM, front panel and listing).
 * @param {ScreenSize} size
 */
export function countMiddleRows({ rows }) {
  return rows - FIXED_ROWS;
}

/** The screen of a panel. */
export class Screen {
  /** @param {Panel} panel */
  constructor(panel) {
    this.panel = panel;
    const { face, board } = panel.subject;
    this.title = escapeControls(face.title);
    this.name = escapeControls(panel.subject.name);
    this.test = face.test;
    this.lampRows = buildLampRows(face, board.lamps.length);
    this.keyLabels = panel.keys.map(formatKeyLabel);
    this.keyWidth = Math.max(MIN_KEY_WIDTH, ...this.keyLabels.map((label) => [...label].length + 2));
  }

  /**
   * Returns all rows of the screen.
   * @param {ScreenSize} size
   * @returns {ScreenRow[]}
   */
  buildRows(size) {
    const { panel } = this;
    const hasMore = panel.snapshot.chips.length > panel.snapshot.listVisibleChips(countMiddleRows(size)).length;
    const [titleRow, ...otherTopRows] = this.buildTopRows();
    const helpRow = say.keyLine(this.test ? formatTestPinName(this.test) : say.TEST_PIN, hasMore);
    const frontRows = this.buildFrontRows(countMiddleRows(size));
    const middleRows = indices(countMiddleRows(size)).map((index) => [
      ...fitToWidth([makePlainPiece(this.formatRam(index))], RAM_WIDTH), makePlainPiece(" "), ...frontRows[index], makePlainPiece(" "),
      makePlainPiece(this.formatListing(index)),
    ]);
    return [
      { pieces: [makePlainPiece(titleRow)], isInverse: true },
      ...otherTopRows.map((text) => ({ pieces: [makePlainPiece(text)], isInverse: false })),
      ...middleRows.map((pieces) => ({ pieces, isInverse: false })),
      { pieces: [makePlainPiece(escapeControls(panel.message))], isInverse: false },
      { pieces: [makePlainPiece(helpRow)], isInverse: true },
    ].map((row) => ({ ...row, pieces: fitToWidth(row.pieces, size.columns) }));
  }

  // --- the top rows ---

  /** Returns the rows above RAM, the front panel and the listing, as strings. */
  buildTopRows() {
    const { panel, title, name } = this;
    const state = panel.isPaused ? say.pausedState(panel.pauseReason) : say.RUNNING;
    const titleRow = say.titleLine(title, name, panel.snapshot.commandCount, state);
    return [titleRow, ...this.buildDisplayRows(), ...this.buildRegisterRows(), this.formatSourceLine()];
  }

  /** Returns the rows that show the display in large digits; empty rows if the board has no display. */
  buildDisplayRows() {
    const { snapshot } = this.panel;
    if (!snapshot.hasDisplay) return Array(LARGE_DIGIT_ROWS).fill("");
    const { display } = snapshot;
    const [number] = display.split(" ");
    const [first, ...otherRows] = largeDigitRows(number.slice(0, MAX_LARGE_CHARACTERS));
    return [`${first.padEnd(LARGE_DIGITS_WIDTH)} ${say.displayLine(escapeControls(display))}`, ...otherRows];
  }

  /** Returns the three rows with the lamps, the registers, and the register pairs. */
  buildRegisterRows() {
    const { snapshot, subject: { source } } = this.panel;
    if (!snapshot.registers) return ["", "", ""];
    const { accumulator, carry, counter, owed, bank, test, registers, returns } = snapshot.registers;
    const pairs = indices(registers.length / 2).map((index) => `P${index} ${registers[2 * index]}${registers[2 * index + 1]}`).join("  ");
    const returnAddress = parseInt(returns[0], 16);
    const hasSourceLine = source !== null && returnAddress > 0 && source.map.lineOf(returnAddress) > 0;
    return [
      say.lampsLine(snapshot.marks || "-"),
      `acc ${accumulator}  cy ${carry}  pc ${counter}  owed ${owed}  dcl ${bank}  test ${test}  ret ${returns.join(" ")}`,
      `${pairs}  ${hasSourceLine ? say.returnAddressLine(this.findAddressName(returnAddress)) : ""}`,
    ];
  }

  /**
   * Returns the name of an address from the source; without a name, the hexadecimal digits of the address.
   * @param {number} address
   */
  findAddressName(address) {
    const { source } = this.panel.subject;
    return (source && source.map.nameOf(address)) || hex(address, 3);
  }

  /** Returns the text of the source line at the program counter; "" if the source is unknown. */
  formatSourceLine() {
    const { subject: { source }, snapshot: { counter } } = this.panel;
    if (!source) return "";
    const line = source.map.lineOf(counter);
    if (line === 0) return notInSourceMessage(hex(counter, 3));
    const sourceLine = escapeControls(expandTabs(source.lines[line - 1]).trimStart());
    return say.nextSourceLine(this.findAddressName(counter), line + source.linesBefore, sourceLine);
  }

  // --- RAM, front panel and listing ---

  /**
   * Returns the RAM text in a row: a RAM register, or the port of a chip; "" if there is no chip.
   * @param {number} row the index of the row below the top rows
   */
  formatRam(row) {
    const { snapshot } = this.panel;
    const chip = snapshot.chips[this.panel.firstChip + Math.floor(row / CHIP_ROWS)];
    const rowInChip = row % CHIP_ROWS;
    if (!chip) return "";
    if (rowInChip === CHIP_ROWS - 1) {
      const portValue = snapshot.ram.ports.get(chip.name);
      return portValue === undefined ? "" : say.portOutput(chip.name, portValue);
    }
    const register = snapshot.ram.registers.get(`${chip.name}.${rowInChip}`);
    return register ? `${chip.name}.${rowInChip} ${register.characters} ${register.status}` : "";
  }

  /**
   * Returns the listing text in a row, with marks for the program counter and for a breakpoint; "" for a row after the last listing line.
   * If an instruction of the source starts at the address, the text is the source line without its comment.
   * @param {number} row the index of the row below the top rows
   */
  formatListing(row) {
    const { snapshot, subject: { source } } = this.panel;
    const listingLine = snapshot.listing[row];
    if (!listingLine) return "";
    const { address, line } = listingLine;
    const digits = hex(address, 3);
    const marks = `${address === snapshot.counter ? ">" : " "}${snapshot.breakpoints.includes(digits) ? "*" : " "}`;
    if (!source || !source.map.beginsInstruction(address)) return marks + line;
    return `${marks}${digits} ${escapeControls(stripComment(source.lines[source.map.lineOf(address) - 1]))}`;
  }

  /**
   * Returns the rows of the front panel: the keys, the button or switch at the TEST pin, the lamps, and the printout.
   * @param {number} count the number of rows
   */
  buildFrontRows(count) {
    const keys = this.buildKeyRows();
    const lamps = this.lampRows.map((cells) => cells.map((cell) => {
      const level = cell.reader ? this.panel.snapshot.findLampLevel(cell.reader) : 0;
      return { text: escapeControls(formatCell(cell, level)), colour: level > 0 ? cell.colour : "", level };
    }));
    const rows = [...keys, ...(keys.length > 0 ? [[]] : []), ...lamps];
    const printout = this.buildPrintoutRows(count - rows.length);
    const visibleRows = indices(count).map((index) => rows[index] || []);
    visibleRows.splice(count - printout.length, printout.length, ...printout.map((text) => [makePlainPiece(text)]));
    return visibleRows.map((pieces) => fitToWidth(pieces, FRONT_PANEL_WIDTH));
  }

  /** @returns {Piece[][]} the rows with the keys, and with the button or switch at the TEST pin; pressed keys are in brackets */
  buildKeyRows() {
    const { panel: { subject: { board }, keys, snapshot }, test } = this;
    const rows = indices(board.rows).map((row) => [makePlainPiece(indices(board.columns).map((column) => {
      const keyIndex = row * board.columns + column;
      const label = this.keyLabels[keyIndex];
      return (snapshot.isDown(keys[keyIndex].key) ? `[${label || "_"}]` : ` ${label} `).padEnd(this.keyWidth);
    }).join(""))]);
    if (!test) return rows;
    const label = escapeControls(say.testKeyLabel(formatTestPinName(test)));
    return [...rows, [makePlainPiece(Number(snapshot.test) === test.level ? `[${label}]` : ` ${label} `)]];
  }

  /**
   * Returns the rows with the last lines of the printout, at least MIN_PRINTOUT_ROWS rows. If there are more rows, the first one is a
   * title. Returns no rows if the board has no printer.
   * @param {number} freeRows the number of rows that the keys and lamps leave free
   */
  buildPrintoutRows(freeRows) {
    const { printerCodes, printout, subject: { face } } = this.panel;
    if (!printerCodes || !face.printer) return [];
    const lines = printoutLines(printout, face.printer.words).map(escapeControls);
    const rowCount = Math.max(MIN_PRINTOUT_ROWS, freeRows);
    const titleRows = rowCount > MIN_PRINTOUT_ROWS ? [say.PRINTOUT_TITLE] : [];
    const lastLines = lines.slice(-(rowCount - titleRows.length));
    return [...titleRows, ...lastLines, ...Array(rowCount - titleRows.length - lastLines.length).fill("")];
  }
}

/**
 * Returns the name of the button or switch at the TEST pin, with blanks instead of underscores.
 * @param {{ name: string }} test
 */
function formatTestPinName({ name }) {
  return name.replace(/_/g, " ");
}

/**
 * Returns the label of a key: its name, and the character that presses it if this differs from the name. For an unnamed key, returns only
 * the character.
 * @param {BoardKey} key
 */
function formatKeyLabel({ legend, letter, isNamed }) {
  if (!isNamed) return letter;
  return escapeControls(legend === letter || letter === "" ? legend : `${legend}:${letter}`);
}

/**
 * Returns a source line without its comment. Shortens its indentation to two blanks, and every other sequence of blanks to one blank.
 * @param {string} line
 */
function stripComment(line) {
  return expandTabs(line).replace(/;.*/, "").trimEnd().replace(/ +/g, " ").replace(/^ /, "  ");
}
