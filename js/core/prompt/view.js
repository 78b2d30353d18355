// Creates the lines of the view, the part of the terminal above the debugger's prompt: the source near the next instruction, the registers,
// the lamps, and the expressions of `display`. js/node/terminal_view.mjs writes the lines to the terminal.
//
//     const view = new View(prompt);
//     const size = chooseViewSize(24, 80);                       null if the terminal is too small
//     view.buildLines(size, { head, nextInstruction, changedValue });

import { indices } from "../bench/numbers.js";
import { MachineState } from "../debug/machine_state.js";
import { escapeControls } from "../text/control_escapes.js";
import { formatCycles } from "../time/cycles.js";
import { formatDisassembly, countSourceLines, listPressedKeys, formatSourceLine } from "./state_text.js";
import * as say from "../../words/prompt.js";

/**
 * @typedef {import("./debugger_prompt.js").Prompt} Prompt
 * @typedef {{ rows: number, columns: number }} ViewSize the number of lines, and the maximum length of a line in characters
 * @typedef {(text: string) => string} Highlight a function that adds control codes, so that the terminal highlights the text
 *
 * The functions that highlight the header line (`head`), the next instruction, and values that the last move changed.
 * @typedef {{ head: Highlight, nextInstruction: Highlight, changedValue: Highlight }} Highlights
 */

/** The minimum numbers of rows and columns of a terminal that can show the view. */
export const MIN_ROWS = 12;
export const MIN_COLUMNS = 40;
/** The minimum number of rows below the view. */
const MIN_COMMAND_ROWS = 5;
/** The maximum number of rows in the view. */
const MAX_ROWS = 40;
/** The minimum number of columns for showing the registers beside the source; with fewer columns, they are below the source. */
const WIDE_COLUMNS = 72;
/** The width of the registers beside the source, in columns. */
const SIDE_COLUMNS = 24;
/** The maximum number of `display` expressions in the view. */
const MAX_DISPLAYS = 4;

/**
 * Returns the size of the view in a terminal; null if the terminal is too small.
 * @param {number} rows
 * @param {number} columns
 * @returns {ViewSize | null}
 */
export function chooseViewSize(rows, columns) {
  if (!(rows >= MIN_ROWS && columns >= MIN_COLUMNS)) return null;
  const wantedRows = Math.round(rows * 0.6);
  // Text in the last column could make the terminal start a new line.
  return { rows: Math.min(MAX_ROWS, wantedRows, rows - MIN_COMMAND_ROWS), columns: columns - 1 };
}

/**
 * Escapes the control characters in text, and shortens the text to a maximum number of columns.
 * @param {string} text
 * @param {number} maxColumns
 */
function cutText(text, maxColumns) {
  const characters = [...escapeControls(text).replace(/[\t\n]/g, " ")];
  return characters.length > maxColumns ? `${characters.slice(0, maxColumns - 2).join("")}..` : characters.join("");
}

export class View {
  /** @param {Prompt} prompt */
  constructor(prompt) {
    this.prompt = prompt;
    /** @type {Map<string, string>} the register values before the last move */
    this.previousValues = new Map();
    /** @type {Map<string, string>} the current register values */
    this.currentValues = new Map();
    /** The cycle count when `currentValues` were read; -1 before they are first read. */
    this.valuesCycleCount = -1;
  }

  /**
   * Returns the lines of the view.
   * @param {ViewSize} size
   * @param {Highlights} highlights
   */
  buildLines({ rows, columns }, { head, nextInstruction, changedValue }) {
    this.readRegisters();
    const isWide = columns >= WIDE_COLUMNS;
    const registerLines = isWide ? this.formatRegistersBeside(changedValue) : this.formatRegistersBelow(columns, changedValue);
    const linesBelow = [...(isWide ? [] : registerLines), ...this.formatBoardLines(columns)];
    const height = Math.max(1, rows - 2 - linesBelow.length);
    const width = isWide ? columns - SIDE_COLUMNS : columns;
    const bodyLines = this.listSourceLines(height).map((line, index) => {
      const text = cutText(line, width);
      const shownText = line.startsWith(">") ? nextInstruction(text) : text;
      return isWide && registerLines[index] ? `${shownText}${" ".repeat(width - text.length)}  ${registerLines[index]}` : shownText;
    });
    return [head(this.formatHeaderLine(columns)), ...bodyLines, ...linesBelow, "-".repeat(columns)].slice(0, rows);
  }

  /** Reads the registers. If the cycle count has changed since the last call, first stores their last values as `previousValues`. */
  readRegisters() {
    const { session } = this.prompt;
    const { total } = session.debugger.session.count;
    const { registers, ports } = new MachineState(session.debugger.session.takeSnapshot());
    const { accumulator, carry, bank, test } = registers;
    const newValues = new Map([["acc", accumulator], ["cy", carry], ["test", test], ["dcl", bank], ["SRC", ports.srcBytes[0]]]);
    for (const index of indices(8)) newValues.set(`P${index}`, `${registers.registers[2 * index]}${registers.registers[2 * index + 1]}`);
    if (total !== this.valuesCycleCount) this.previousValues = this.currentValues.size > 0 ? this.currentValues : newValues;
    this.currentValues = newValues;
    this.valuesCycleCount = total;
  }

  /**
   * Returns the first line: the program name, the program counter and the simulated time.
   * @param {number} columns
   */
  formatHeaderLine(columns) {
    const { session, launchResult } = this.prompt;
    const name = launchResult.program.split("/").pop() || "ROM";
    return cutText(`${name}  ${session.counterText}  ${formatCycles(session.debugger.session.count.total)}`, columns).padEnd(columns);
  }

  /**
   * Returns the source lines, or the disassembled instructions, near the next instruction.
   * @param {number} height the number of lines
   */
  listSourceLines(height) {
    const { session } = this.prompt;
    if (session.line === 0) return formatDisassembly(session, session.address, height).split("\n");
    const count = countSourceLines(session);
    const first = Math.max(1, Math.min(session.line - Math.floor(height / 2), count - height + 1));
    return indices(height).map((index) => (first + index <= count ? formatSourceLine(session, first + index) : "~"));
  }

  /**
   * Returns the name and the value of a register as one string, which is highlighted if the last move changed the value.
   * @param {string} name
   * @param {Highlight} highlight
   * @returns {string}
   */
  formatValue(name, highlight) {
    const value = this.currentValues.get(name) || "";
    const text = `${name} ${value}`;
    return this.previousValues.get(name) === value ? text : highlight(text);
  }

  /**
   * Returns the lines with the registers beside the source.
   * @param {Highlight} highlight
   */
  formatRegistersBeside(highlight) {
    const { session } = this.prompt;
    const formatValue = (/** @type {string} */ name) => this.formatValue(name, highlight);
    const returnAddresses = session.registers.returns.join(" ");
    return [
      `${formatValue("acc")}   ${formatValue("cy")}   ${formatValue("test")}`,
      `${formatValue("dcl")}   ${formatValue("SRC")}`,
      ...indices(4).map((index) => `${formatValue(`P${2 * index}`)}  ${formatValue(`P${2 * index + 1}`)}`),
      `returns ${returnAddresses}`,
    ];
  }

  /**
   * Returns the lines with the registers below the source.
   * @param {number} columns
   * @param {Highlight} highlight
   */
  formatRegistersBelow(columns, highlight) {
    const formatValues = (/** @type {string[]} */ names) => names.map((name) => this.formatValue(name, highlight)).join(" ");
    const pairs = indices(8).map((index) => `P${index}`);
    const singleNames = ["acc", "cy", "test", "dcl", "SRC"];
    if (columns >= 60) return [formatValues(singleNames), formatValues(pairs)];
    return [formatValues(singleNames), formatValues(pairs.slice(0, 4)), formatValues(pairs.slice(4))];
  }

  /**
   * Returns the lines with the lamps, the pressed keys and the expressions of `display`.
   * @param {number} columns
   */
  formatBoardLines(columns) {
    const { machine, session, inspectCommands } = this.prompt;
    const keys = listPressedKeys(session).join(" ");
    const panelText = machine.frontPanelText.currentText();
    const displays = inspectCommands.displays.slice(0, MAX_DISPLAYS)
      .map((expression) => `${expression} = ${inspectCommands.evaluateOrExplain(expression)}`);
    return [panelText, keys && say.keysDown(keys), ...displays].filter(Boolean).map((line) => cutText(line, columns));
  }
}
