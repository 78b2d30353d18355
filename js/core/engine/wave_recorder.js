// Records the signal lines of a board for the next or the last cycles of a session. For this, a copy of the session runs in the worker.
// Before each run, `trace` queries forecast the values of the lines.

import { readBoard } from "../bench/answers.js";
import { CancelledError } from "../bench/bench_errors.js";
import { joinLines } from "../bench/inputs.js";
import { createBoardLines } from "../waves/wave_lines.js";
import { MAX_RUN_CYCLES } from "./key_queue.js";
import { FIRST_PIECE_CYCLES, PieceSize, RECORDING_PIECE_CYCLES, RECORDING_PIECE_UNITS } from "./piece_size.js";
import { ForecastAnswers } from "./forecast_answers.js";
import { splitIntoPieces, unitsBetween } from "./replay_units.js";
import { WaveBuilder } from "./wave_builder.js";
import { copyWithoutStops } from "./free_running_copy.js";

/**
 * @typedef {import("./engine_host.js").EngineHost} Engine
 * @typedef {import("./timeline.js").Moment} Moment
 * @typedef {import("./timeline.js").Timeline} Timeline
 * @typedef {import("./replay_units.js").Unit} Unit
 * @typedef {import("../waves/wave_lines.js").WaveLine} WaveLine
 *
 * The program in ROM: its text, the source lines by address (0 for none), and its labels in ascending address order.
 * @typedef {{ text: string, lines: Uint16Array, labels: { address: number, name: string }[] }} RecordedProgram
 *
 * A part of a recording, as sent to the page. A moment is a number of cycles since the start of the recording; the value of a line at a
 * moment is its value after that many cycles.
 * - `from`, `cycles`: the moments at which the part starts and ends;
 * - `isStuck`: true if the next opcode is not an instruction;
 * - `tracks`: the values of each signal line over time;
 * - `moments`: the moments at which instructions start, and the end of the part;
 * - `counters`: the program counter at each of these moments;
 * - `isOwed`: true if the first of these moments is the second cycle of an instruction;
 * - `listing`: the address and the listing line of each instruction that has not occurred in earlier parts.
 * @typedef {import("./wave_builder.js").WavePart & { listing: [number, string][] }} RecordedPart
 *
 * A recording from its start, with the list of its signal lines. `program` is null if the program text does not match ROM.
 * @typedef {RecordedPart & { lines: WaveLine[], program: RecordedProgram | null }} Recording
 *
 * The texts for a recording. `board` is the board text, which defines names. `program` is the program in ROM, null if its text does not
 * match ROM. `values` are the names of registers and RAM nibbles to record in addition to the board lines.
 * @typedef {{ board: string, program: RecordedProgram | null, values: string[] }} Texts
 *
 * A callback that receives the number of completed cycles, and resolves to true to continue.
 * @typedef {(done: number) => Promise<boolean>} ShouldContinue
 */

class WaveRecorder {
  /**
   * @param {Engine} engine
   * @param {Uint8Array} file the session file to run; modified in place
   * @param {Texts} texts
   */
  constructor(engine, file, texts) {
    this.engine = engine;
    this.file = file;
    this.program = texts.program;
    const board = readBoard(engine.ask(file, "board\n").answers);
    this.builder = new WaveBuilder(createBoardLines(board, texts.board, texts.program !== null, texts.values));
    this.builder.begin(new ForecastAnswers(engine.ask(file, `state\n${this.builder.queries(1)}`).answers));
  }

  /**
   * Runs units and records them.
   * @param {Pick<Unit, "line" | "cycles">[]} units
   */
  record(units) {
    const { engine, file, builder } = this;
    const lines = units.map(({ line, cycles }) => (cycles > 0 ? `${builder.queries(cycles)}${line}\n` : `${line}\nstate\n`)).join("");
    const answers = new ForecastAnswers(engine.serve(file, lines, file).answers);
    for (const { cycles } of units) {
      if (cycles > 0) {
        builder.recordRun(answers);
      } else {
        answers.take();
        builder.recordState(answers.take());
      }
    }
  }

  /**
   * Reads the final state, and returns the complete recording.
   * @returns {Recording}
   */
  finish() {
    const { engine, file, builder, program } = this;
    builder.recordState(engine.ask(file, "state\n").answers[0]);
    const part = builder.take();
    return { ...part, lines: builder.lines, listing: listingLinesAt(engine, file, new Set(part.counters)), program };
  }
}

/**
 * Returns the listing lines at the given addresses.
 * @param {Engine} engine
 * @param {Uint8Array} file
 * @param {Iterable<number>} addresses
 * @returns {[number, string][]}
 */
export function listingLinesAt(engine, file, addresses) {
  const addressList = [...addresses];
  if (addressList.length === 0) return [];
  const { answers } = engine.ask(file, joinLines(addressList.map((address) => `list ${address} 1`)));
  return addressList.map((address, index) => [address, answers[index]]);
}

/**
 * Records the next cycles without stopping at breakpoints or watches; resolves to the recording. The file does not change. Throws
 * CancelledError if `shouldContinue` resolves to false.
 * @param {Engine} engine
 * @param {Uint8Array} file
 * @param {number} cycles
 * @param {Texts} texts
 * @param {ShouldContinue} shouldContinue
 */
export async function recordNextCycles(engine, file, cycles, texts, shouldContinue) {
  const recorder = new WaveRecorder(engine, copyWithoutStops(engine, file), texts);
  const { builder } = recorder;
  const pieceSize = new PieceSize(FIRST_PIECE_CYCLES, FIRST_PIECE_CYCLES, MAX_RUN_CYCLES);
  while (builder.elapsed < cycles && !builder.isStuck) {
    const nextCycles = Math.min(pieceSize.size, cycles - builder.elapsed);
    pieceSize.measure(() => recorder.record([{ line: `run ${nextCycles}`, cycles: nextCycles }]));
    if (builder.elapsed < cycles && !(await shouldContinue(builder.elapsed))) throw new CancelledError();
  }
  return recorder.finish();
}

/**
 * Returns the moment at which a recording of the past starts: `cycles` cycles ago, or at the start of the past. If the board changed after
 * that moment, the recording starts after the last such change.
 * @param {Timeline} timeline
 * @param {number} cycles
 * @returns {Moment}
 */
function findRecordingStart(timeline, cycles) {
  let segment = timeline.segments.length - 1;
  const requestedStart = timeline.momentBefore(cycles);
  while (timeline.segments[segment].follows && (!requestedStart || segment > requestedStart.segment)) segment -= 1;
  let moment = requestedStart || { segment, entry: 0, cycles: 0 };
  for (segment = moment.segment; segment < timeline.segments.length; segment++) {
    timeline.segments[segment].entries.forEach(({ line }, entry) => {
      const isLater = segment > moment.segment || entry >= moment.entry;
      if (isLater && /^[ \t]*wire/.test(line)) moment = { segment, entry: entry + 1, cycles: 0 };
    });
  }
  return moment;
}

/**
 * Returns the units from a moment to the present.
 * @param {Timeline} timeline
 * @param {Moment} from
 */
function unitsFrom(timeline, from) {
  return timeline.segments.slice(from.segment).flatMap(({ entries }, index) => {
    const segment = from.segment + index;
    const start = index === 0 ? from : { segment, entry: 0, cycles: 0 };
    return unitsBetween(timeline, start, { segment, entry: entries.length, cycles: 0 });
  });
}

/**
 * Records the last cycles before the present; resolves to the recording. Records fewer cycles if the stored past is shorter, or if the
 * board has changed. Replays these cycles, and all commands that were entered during them, on a copy of the session. Throws CancelledError
 * if `shouldContinue` resolves to false.
 * @param {Engine} engine
 * @param {Timeline} timeline
 * @param {number} cycles
 * @param {Texts} texts
 * @param {ShouldContinue} shouldContinue
 */
export async function recordLastCycles(engine, timeline, cycles, texts, shouldContinue) {
  const from = findRecordingStart(timeline, cycles);
  const { file } = await timeline.sessionAt(engine, from, () => shouldContinue(0));
  const recorder = new WaveRecorder(engine, file, texts);
  for (const units of splitIntoPieces(unitsFrom(timeline, from), RECORDING_PIECE_CYCLES, RECORDING_PIECE_UNITS)) {
    recorder.record(units);
    if (!(await shouldContinue(recorder.builder.elapsed))) throw new CancelledError();
  }
  return { ...recorder.finish(), isStuck: false };
}
