// Traces a session from its current state. Runs a copy of the session in pieces.

import { readBoard, readRun } from "../bench/answers.js";
import { MAX_RUN_CYCLES } from "../engine/key_queue.js";
import { copyWithoutStops } from "../engine/free_running_copy.js";
import { InstructionTexts } from "./instruction_texts.js";
import { TraceLines } from "./trace_lines.js";
import * as say from "../../words/trace.js";

/**
 * @typedef {import("../engine/engine_host.js").EngineHost} EngineHost
 * @typedef {import("../engine/engine_host.js").State} State
 * @typedef {import("./instruction_texts.js").TraceSource} TraceNames
 *
 * A function that yields to other tasks. It is called between the pieces of long work.
 * @typedef {() => Promise<any>} YieldToMessages
 */

/** The length of the first piece, and of all other pieces, in cycles. The first piece is short, so that the first lines appear soon. */
const FIRST_PIECE_CYCLES = 500;
const PIECE_CYCLES = 10000;
/** The word in a `run` answer if all cycles ran. */
const RAN_TO_END = "end";

/**
 * Runs a session from a state. Resolves to the number of cycles that ran, and the reason for the stop (`end` if all cycles ran).
 * @param {EngineHost} engine
 * @param {State} state the state at the start, which the run changes
 * @param {number} cycles the maximum number of cycles
 * @param {YieldToMessages} yieldToMessages
 */
async function runState(engine, state, cycles, yieldToMessages) {
  for (let cyclesRun = 0; cyclesRun < cycles;) {
    const [answer] = engine.serve(state, `run ${Math.min(MAX_RUN_CYCLES, cycles - cyclesRun)}\n`, state).answers;
    const run = readRun(answer);
    if (!run) throw new Error(`unexpected answer to a run: ${answer}`);
    cyclesRun += run.cycles;
    if (run.end !== RAN_TO_END) return { cycles: cyclesRun, end: run.end };
    await yieldToMessages();
  }
  return { cycles, end: RAN_TO_END };
}

export class SessionTrace {
  /**
   * @param {EngineHost} engine
   * @param {State} state
   * @param {YieldToMessages} yieldToMessages
   */
  constructor(engine, state, yieldToMessages) {
    this.engine = engine;
    this.startState = state;
    this.yieldToMessages = yieldToMessages;
    this.board = readBoard(engine.ask(state, "board\n").answers);
  }

  /**
   * Yields lists with the trace lines of the next cycles. Ignores breakpoints and watches.
   * @param {number} cycles
   * @param {TraceNames | null} names
   */
  async* traceNext(cycles, names) {
    const state = copyWithoutStops(this.engine, this.startState);
    yield* this.traceRange(state, { from: 0, to: cycles, end: RAN_TO_END }, names);
  }

  /**
   * Yields one list with the trace lines of the last instructions before the session stops for the first time. If it stops, the last line
   * of the list is the instruction at the stop.
   * @param {number} count the number of instructions
   * @param {number} cycles the maximum number of cycles up to the stop
   * @param {TraceNames | null} names
   */
  async* traceLast(count, cycles, names) {
    const { engine, yieldToMessages } = this;
    const stop = await runState(engine, this.startState.slice(), cycles, yieldToMessages);
    // An instruction takes at most two cycles, and the session can start at the second cycle of an instruction.
    const from = Math.max(0, stop.cycles - 2 * count - 2);
    const state = copyWithoutStops(engine, this.startState);
    await runState(engine, state, from, yieldToMessages);
    /** @type {string[]} */
    const lines = [];
    for await (const piece of this.traceRange(state, { from, to: stop.cycles, end: stop.end }, names)) lines.push(...piece);
    const isStopped = stop.end !== RAN_TO_END;
    yield lines.slice(-count - Number(isStopped));
  }

  /**
   * Yields lists with the trace lines of a range of cycles. If the session stops, the last line is the instruction at the stop.
   * @param {State} state the state at the start of the range, which the runs change to the state at the end of the range
   * @param {{ from: number, to: number, end: string }} range the range, in cycles after the start state; `end` is the reason for the stop
   *   at the end of the range
   * @param {TraceNames | null} names
   */
  async* traceRange(state, { from, to, end }, names) {
    const { engine, board } = this;
    const trace = new TraceLines(engine, board, new InstructionTexts(names));
    let stop = { elapsed: from, end };
    yield trace.traceSecondCycle(state, from);
    for (let piece = FIRST_PIECE_CYCLES; stop.elapsed < to && stop.end === end; piece = PIECE_CYCLES) {
      const count = Math.min(piece, to - stop.elapsed);
      yield trace.traceRun(state, count, stop.elapsed);
      const run = await runState(engine, state, count, this.yieldToMessages);
      const pieceEnd = stop.elapsed + run.cycles;
      stop = { elapsed: pieceEnd, end: pieceEnd < to ? run.end : end };
    }
    if (stop.end !== RAN_TO_END) yield [`${trace.formatNext(state, stop.elapsed)}${say.stopsBefore(stop.end)}`];
  }
}
