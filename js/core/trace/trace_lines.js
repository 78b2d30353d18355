// Creates the lines of a trace: one line for each instruction of a run, with the changes that it makes. Uses the answers to the queries
// `count` and `trace`, which predict a run without changing the state.

import { MAX_PLACES } from "../bench/inputs.js";
import { stateValue } from "../bench/state_line.js";
import { instructionCycles } from "../engine/rom_codes.js";
import { ForecastAnswers, parseTraceLine, rowValues } from "../engine/forecast_answers.js";
import { indices } from "../bench/numbers.js";
import { listTracePlaces } from "./trace_places.js";
import * as say from "../../words/trace.js";

/**
 * @typedef {import("../bench/answers.js").Board} Board
 * @typedef {import("../engine/engine_host.js").EngineHost} EngineHost
 * @typedef {import("../engine/engine_host.js").State} State
 * @typedef {import("../engine/forecast_answers.js").Trace} Trace
 * @typedef {import("./instruction_texts.js").InstructionTexts} InstructionTexts
 * @typedef {import("./trace_places.js").TracePlace} TracePlace
 *
 * The places of one `trace` query, such as registers and ports. `values` are their current values. `rows` are the answer's rows with new
 * values, by the number of cycles before the instruction that changes a value.
 * @typedef {{ places: TracePlace[], values: string[], rows: Map<number, string> }} Group
 */

/** The number of index registers in the main query, which also asks for the program counter, the accumulator and the carry. */
const MAIN_REGISTER_COUNT = 13;
const MAIN_PLACES = ["pc", "acc", "cy", ...indices(MAIN_REGISTER_COUNT).map((index) => `r${index}`)];
/** The character indices in a row of MAIN_PLACES, which has the form ` PPP A C R R ..`. */
const ROW_INDICES = { pc: 1, acc: 5, cy: 7, registers: 9 };

/**
 * Returns the register changes between two rows as text.
 * @param {string} row
 * @param {string} previousRow the row before the changes
 */
function formatRegisterChanges(row, previousRow) {
  let changes = "";
  for (let index = 0; index < MAIN_REGISTER_COUNT; index++) {
    const digit = row[ROW_INDICES.registers + 2 * index];
    if (digit !== previousRow[ROW_INDICES.registers + 2 * index]) changes += ` r${index} ${digit}`;
  }
  return changes;
}

/**
 * Stores the values of a row as the current values of a group. Returns the changes as text.
 * @param {Group} group
 * @param {string | undefined} row the row; undefined if no value changes
 */
function updateGroup(group, row) {
  let changes = "";
  if (row === undefined) return changes;
  rowValues(row).forEach((value, index) => {
    const { textOf } = group.places[index];
    if (value === group.values[index]) return;
    const text = textOf(value);
    if (text !== textOf(group.values[index])) changes += text;
    group.values[index] = value;
  });
  return changes;
}

export class TraceLines {
  /**
   * @param {EngineHost} engine
   * @param {Board} board
   * @param {InstructionTexts} texts
   */
  constructor(engine, board, texts) {
    this.engine = engine;
    this.board = board;
    this.texts = texts;
  }

  /**
   * Returns a list with the line for a pending second cycle, whose instruction started before the trace; an empty list if no second cycle
   * is pending.
   * @param {State} state
   * @param {number} elapsed the number of cycles before the line
   */
  traceSecondCycle(state, elapsed) {
    const [answer] = this.engine.ask(state, "state\n").answers;
    if (stateValue(answer, "owed") !== "1") return [];
    return [`${this.texts.formatPlainLine(elapsed, say.SECOND_CYCLE)}acc ${stateValue(answer, "acc")} cy ${stateValue(answer, "cy")}`];
  }

  /**
   * Returns the lines of a run: one string per executed instruction. If the instruction has a label that its source line does not show, the
   * string begins with a line for the label.
   * @param {State} state
   * @param {number} cycles the length of the run in cycles, at most the maximum of the bench
   * @param {number} elapsed the number of cycles before the run
   */
  traceRun(state, cycles, elapsed) {
    const { engine, texts, board } = this;
    const countAnswers = new ForecastAnswers(engine.ask(state, `count ${cycles}\n`).answers);
    const executedAddresses = countAnswers.takeCounts().map(({ address }) => address);
    texts.readInstructions(engine, state, executedAddresses);
    const codes = new Set(executedAddresses.map((address) => texts.codes[address]));
    const places = listTracePlaces(board, MAIN_REGISTER_COUNT, (code) => codes.has(code));
    const groups = indices(Math.ceil(places.length / MAX_PLACES))
      .map((group) => places.slice(group * MAX_PLACES, (group + 1) * MAX_PLACES));
    const queries = [...groups.map((group) => group.map(({ name }) => name)), MAIN_PLACES];
    const queryText = queries.map((names) => `trace ${cycles} ${names.join(" ")}\n`).join("");
    const answers = new ForecastAnswers(engine.ask(state, `regs\n${queryText}`).answers);
    const isSecondCyclePending = stateValue(answers.take(), "owed") === "1";
    const groupsWithRows = groups.map((group) => createGroup(group, answers.takeTrace()));
    return this.mergeAnswers(groupsWithRows, answers.takeTrace(), { elapsed, firstCycle: Number(isSecondCyclePending) });
  }

  /**
   * Returns the lines of the trace, which combine the answers to all queries.
   * @param {Group[]} groups
   * @param {Trace} mainTrace the trace of MAIN_PLACES
   * @param {{ elapsed: number, firstCycle: number }} run `elapsed` is the number of cycles before the run; `firstCycle` is the cycle of
   *   the run in which its first instruction starts
   */
  mergeAnswers(groups, mainTrace, { elapsed, firstCycle }) {
    /** @type {string[]} */
    const lines = [];
    let { row } = mainTrace;
    let nextCycle = firstCycle;
    const addLine = (/** @type {number} */ startCycle, /** @type {number} */ address, /** @type {string} */ newRow) => {
      const registers = newRow === row ? "" : formatRegisterChanges(newRow, row);
      const changes = groups.reduce((text, group) => text + updateGroup(group, group.rows.get(startCycle)), registers);
      row = newRow;
      const start = this.texts.formatInstructionLine(elapsed + startCycle, address);
      lines.push(`${start}acc ${row[ROW_INDICES.acc]} cy ${row[ROW_INDICES.cy]}${changes && ` ${changes}`}`);
      nextCycle = startCycle + instructionCycles(this.texts.codes[address]);
    };
    // An instruction that jumps to itself changes nothing, so the answer has no row for it. Its line is repeated up to the next row.
    const repeatJump = (/** @type {number} */ to) => {
      while (nextCycle < to) addLine(nextCycle, parseInt(row.slice(ROW_INDICES.pc, ROW_INDICES.acc - 1), 16), row);
    };
    for (const line of mainTrace.lines) {
      const { cycles: startCycle, address, row: newRow } = parseTraceLine(line);
      repeatJump(startCycle);
      addLine(startCycle, address, newRow);
    }
    repeatJump(mainTrace.cycles);
    return lines;
  }

  /**
   * Returns the first columns of the line for the next instruction, without its changes.
   * @param {State} state
   * @param {number} elapsed the number of cycles before the instruction
   */
  formatNext(state, elapsed) {
    const { engine, texts } = this;
    const address = parseInt(stateValue(engine.ask(state, "regs\n").answers[0], "pc"), 16);
    texts.readInstructions(engine, state, [address]);
    return texts.formatInstructionLine(elapsed, address);
  }
}

/**
 * Creates a group from its places and the answer to their query.
 * @param {TracePlace[]} places
 * @param {Trace} trace
 * @returns {Group}
 */
function createGroup(places, { row, lines }) {
  const rows = new Map(lines.map(parseTraceLine).map(({ cycles, row: newRow }) => [cycles, newRow]));
  return { places, values: rowValues(row), rows };
}
