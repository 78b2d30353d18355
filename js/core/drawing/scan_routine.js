// Generates the source of a routine that scans the key matrix of a board.

import { indices } from "../bench/numbers.js";
import * as say from "../../words/key_scan.js";

/**
 * @typedef {import("../bench/answers.js").Board} Board
 * @typedef {import("../bench/answers.js").Matrix} Matrix
 *
 * The port of a signal line. `bank`: the RAM bank that DCL must select, or -1 for a ROM port. `srcByte`: the byte that SRC must send to
 * select the port. `write`: the instruction that writes to the port. `title`: the name of the port in comments. `bit`: the value of the
 * line's bit in the port (1, 2, 4 or 8).
 * @typedef {{ bank: number, srcByte: number, write: string, title: string, bit: number }} Port
 *
 * A source line: its label ("" for none), the words of its instruction (mnemonic and operands), and its comment.
 * @typedef {[label: string, instruction: string[], comment?: string]} Line
 */

/** The columns at which instructions and comments start. */
const LABEL_WIDTH = 12;
const COMMENT_COLUMN = 32;
/** The number of values of a 4-bit register, which is the maximum number of iterations of an ISZ loop. */
const REGISTER_VALUE_COUNT = 16;

/**
 * Returns the port of a signal line.
 * @param {string} line such as `rom0.2` or `ram1.3.0`
 * @returns {Port}
 */
function portForLine(line) {
  const numbers = line.slice(3).split(".").map(Number);
  const bit = 2 ** numbers[numbers.length - 1];
  if (line.startsWith("rom")) return { bank: -1, srcByte: numbers[0] * 16, write: "WRR", title: say.romPort(numbers[0]), bit };
  return { bank: numbers[0], srcByte: numbers[1] * 64, write: "WMP", title: say.ramPort(numbers[0], numbers[1]), bit };
}

/** @type {(left: Port, right: Port) => boolean} returns whether two signal lines belong to one port */
const isSamePort = (left, right) => left.title === right.title;

/** @type {(byte: number) => string} formats a byte as a hexadecimal numeral */
const hexByte = (byte) => `0x${byte.toString(16).toUpperCase().padStart(2, "0")}`;

/**
 * Returns the source lines that select a port.
 * @param {Port} port
 * @returns {Line[]}
 */
function createSelectionLines({ bank, srcByte, title }) {
  /** @type {Line[]} */
  const bankLines = bank < 0 ? [] : [["", ["LDM", String(bank)]], ["", ["DCL"]]];
  return [...bankLines, ["", ["FIM", "P0,", hexByte(srcByte)], title], ["", ["SRC", "P0"]]];
}

/**
 * Formats a source line.
 * @param {Line} line
 */
function formatLine([label, instruction, comment = ""]) {
  const code = `${(label && `${label}:`).padEnd(LABEL_WIDTH)}${instruction.join(" ")}`;
  return comment === "" ? code : `${code.padEnd(COMMENT_COLUMN)}; ${comment}`;
}

/** Creates the labels of the routine. The labels start with a prefix that does not occur in the source. */
class Labels {
  /** @param {string} text the source that will contain the routine */
  constructor(text) {
    const number = indices(1000).find((candidate) => !text.includes(`keys${candidate || ""}_`)) || 0;
    this.prefix = `keys${number || ""}`;
  }

  /** @param {string} suffix the label after the prefix and the underscore */
  labelFor(suffix) {
    return `${this.prefix}_${suffix}`;
  }
}

/**
 * Returns the source lines that shift the 1 from bit 0 of the chain to the bit of row 0.
 * @param {number} first the number of the bit for row 0
 * @param {Labels} labels
 * @returns {Line[]}
 */
function createFirstRowLines(first, labels) {
  if (first === 0) return [];
  const rounds = Math.ceil(first / REGISTER_VALUE_COUNT);
  const [loopLabel, shiftLabel] = [labels.labelFor("first"), labels.labelFor("shift")];
  /** @type {Line[]} */
  const counterLines = [
    ["", ["LDM", String((REGISTER_VALUE_COUNT - (first % REGISTER_VALUE_COUNT)) % REGISTER_VALUE_COUNT)]],
    ["", ["XCH", "R8"], say.bitMovesTo(first)],
  ];
  if (rounds > 1) counterLines.push(["", ["LDM", String(REGISTER_VALUE_COUNT - rounds)]], ["", ["XCH", "R9"]]);
  /** @type {Line[]} */
  const loop = [[loopLabel, ["LDM", "0"]], ["", ["JMS", shiftLabel]], ["", ["ISZ", "R8,", loopLabel]]];
  return [...counterLines, ...loop, .../** @type {Line[]} */ (rounds > 1 ? [["", ["ISZ", "R9,", loopLabel]]] : [])];
}

/**
 * Returns the source lines that read the columns. If a column is 1, the program jumps to the label of the first such column.
 * @param {string[]} columns the signal lines of the columns
 * @param {Labels} labels
 * @returns {Line[]}
 */
function createColumnLines(columns, labels) {
  const ports = columns.map(portForLine);
  const distinctPorts = ports.filter((port, index) => ports.findIndex((candidate) => isSamePort(candidate, port)) === index);
  return distinctPorts.flatMap((distinctPort) => {
    /** @type {Line[]} */
    const lines = [...createSelectionLines(distinctPort), ["", ["RDR"]]];
    let bit = 1 / 2;
    const portColumns = ports.map((port, column) => ({ ...port, column })).filter((port) => isSamePort(port, distinctPort));
    for (const { bit: columnBit, column } of portColumns.sort((a, b) => a.bit - b.bit)) {
      if (columnBit === bit) continue;
      for (; bit < columnBit; bit *= 2) lines.push(["", ["RAR"]]);
      lines.push(["", ["JCN", "2,", labels.labelFor(String(column))], say.columnInCarry(column)]);
    }
    return lines;
  });
}

/**
 * Returns the source lines of the subroutine that shifts one bit into the chain. The subroutine expects the value for the data port in the
 * accumulator.
 * @param {Port} clock
 * @param {Port} data
 * @param {Labels} labels
 * @returns {Line[]}
 */
function createShiftLines(clock, data, labels) {
  const isOnePort = isSamePort(clock, data);
  /** @type {Line[]} */
  const clockLowLines = isOnePort ? [] : [...createSelectionLines(clock), ["", ["LDM", "0"]], ["", [clock.write]]];
  /** @type {Line[]} */
  const dataBitLines = isOnePort ? [["", ["CLC"]], ["", ["ADD", "R6"]]] : [];
  return [
    [labels.labelFor("shift"), ["XCH", "R6"], say.BIT_ENTERS], ...createSelectionLines(data), ["", ["LD", "R6"]],
    ["", [data.write], isOnePort ? say.CLOCK_LOW : say.DATA], ...clockLowLines,
    ["", ["LDM", String(clock.bit)]], ...dataBitLines, ["", [clock.write], say.CLOCK_RISES], ["", ["BBL", "0"]],
  ];
}

/**
 * Returns the comment lines above the routine: its purpose, its call, the registers that it changes, and the ports that it writes.
 * @param {Matrix} matrix
 * @param {Port} clock
 * @param {Port} data
 * @param {Labels} labels
 */
function createHeaderLines({ chain, first, rows, columns }, clock, data, labels) {
  const portsToRead = [...new Set(columns.map((line) => portForLine(line).title))];
  const writtenPorts = [...new Set([data.title, clock.title])];
  const banks = [...new Set([data.bank, clock.bank])].filter((bank) => bank >= 0);
  return [
    say.scansKeys(rows, first, chain, portsToRead), say.callUsage(labels.labelFor("scan")),
    say.registersUsed(first > REGISTER_VALUE_COUNT ? "R9" : first > 0 ? "R8" : "R7"), say.writesPorts(writtenPorts),
    ...banks.map(say.designatesBank),
  ].map((words) => `; ${words}`);
}

/**
 * Returns the source of the routine. If the source text has no instructions yet, the result begins with a program that calls the routine.
 * Returns "" for a board without keys.
 * @param {Board} board
 * @param {string} text the source that will contain the routine
 */
export function createKeyScanSource({ matrix, chains }, text) {
  if (!matrix) return "";
  const { rows, first, columns } = matrix;
  const [clock, data] = [portForLine(chains[matrix.chain].clock), portForLine(chains[matrix.chain].data)];
  const labels = new Labels(text);
  const [scanLabel, rowLabel, shiftLabel, outLabel] = ["scan", "row", "shift", "out"].map((suffix) => labels.labelFor(suffix));
  /** @type {Line[]} */
  const callingProgram = /^\s*[^\s;]/m.test(text) ? [] : [["start", ["JMS", scanLabel], say.PROGRAM_CONTINUES], ["", ["JUN", "start"]]];
  /** @type {Line[]} */
  const lines = [
    [scanLabel, ["LDM", "0"]], ["", ["XCH", "R4"], say.FIRST_ROW],
    ["", ["LDM", String(REGISTER_VALUE_COUNT - rows)]], ["", ["XCH", "R7"], say.countsRows(rows)],
    ["", ["LDM", String(data.bit)]], ["", ["JMS", shiftLabel], say.SINGLE_1_ENTERS], ...createFirstRowLines(first, labels),
    ...createColumnLines(columns, labels).map((line, index) => /** @type {Line} */ (index === 0 ? [rowLabel, line[1], line[2]] : line)),
    ["", ["LDM", "0"]], ["", ["JMS", shiftLabel], say.NEXT_ROW], ["", ["INC", "R4"]], ["", ["ISZ", "R7,", rowLabel]],
    ["", ["BBL", "0"], say.NO_KEY],
    ...columns.flatMap((_, column) => /** @type {Line[]} */ ([
      [labels.labelFor(String(column)), ["LDM", String(column)], say.columnIsDown(column)], ["", ["JUN", labels.labelFor("down")]]])),
    [labels.labelFor("down"), ["XCH", "R5"]], [outLabel, ["LDM", "0"]], ["", ["JMS", shiftLabel], say.BIT_LEAVES_ROWS],
    ["", ["ISZ", "R7,", outLabel]], ["", ["BBL", "1"], say.KEY_IS_DOWN], ...createShiftLines(clock, data, labels),
  ];
  const headerComments = createHeaderLines(matrix, clock, data, labels);
  const blankLine = callingProgram.length > 0 ? [""] : [];
  return [...callingProgram.map(formatLine), ...blankLine, ...headerComments, ...lines.map(formatLine), ""].join("\n");
}

/**
 * Returns the edit that inserts a routine into the source, after the line with the caret or, if there is no caret, at the end. A blank line
 * separates the routine from the text before and after it.
 * @param {string} text
 * @param {number} line the number of the line with the caret, from 1; 0 for no caret
 * @param {string} code the routine
 * @returns {{ edit: import("./text_edits.js").TextEdit, first: number, isEnd: boolean }} `first`: the number of the first routine
 *   line; `isEnd`: true if no text follows the routine
 */
export function createRoutineInsertion(text, line, code) {
  const lines = text.split("\n");
  const before = lines.slice(0, line > 0 ? line : lines.length).join("\n");
  const head = before.trimEnd();
  const tail = text.slice(before.length).replace(/^([ \t]*\n)+/, "");
  const isEnd = tail.trim() === "";
  const insertedText = `${head === "" ? "" : "\n\n"}${code}${isEnd ? "" : "\n"}`;
  return {
    edit: { from: head.length, to: isEnd ? text.length : text.length - tail.length, insert: insertedText },
    first: head === "" ? 1 : head.split("\n").length + 2,
    isEnd,
  };
}
