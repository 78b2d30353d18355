// Records the signal lines of a board piece by piece, while the caller writes the recording to a file. Therefore only one piece of a long
// recording is in memory at a time.

import { Waves } from "../waves/wave_recording.js";
import { ForecastAnswers } from "./forecast_answers.js";
import { WaveBuilder } from "./wave_builder.js";

/**
 * @typedef {import("./engine_host.js").EngineHost} EngineHost
 * @typedef {import("./engine_host.js").State} State
 * @typedef {import("./wave_recorder.js").RecordedProgram} RecordedProgram
 * @typedef {import("../waves/wave_lines.js").WaveLine} WaveLine
 */

/** The length of a piece in cycles. */
const PIECE_CYCLES = 20000;

/**
 * Returns whether a signal line depends on the program counter.
 * @param {WaveLine} line
 */
const dependsOnCounter = ({ kind }) => kind === "pc" || kind === "label";

/**
 * Returns the chosen signal lines of a board together with the lines of each chosen port.
 * @param {WaveLine[]} lines the signal lines of the board
 * @param {number[]} chosenLines the indices of the chosen lines
 * @returns {{ lines: WaveLine[], chosenIndices: number[] }} `chosenIndices` are the new indices of the chosen lines
 */
export function linesWithMembers(lines, chosenLines) {
  const neededIndices = [...new Set(chosenLines.flatMap((line) => [line, ...lines[line].members]))];
  const positions = new Map(neededIndices.map((line, index) => [line, index]));
  const newIndex = (/** @type {number} */ line) => positions.get(line) ?? -1;
  return {
    lines: neededIndices.map((line) => ({ ...lines[line], members: lines[line].members.map(newIndex) })),
    chosenIndices: chosenLines.map(newIndex),
  };
}

/**
 * Records the next cycles of a state, which must have no breakpoints and no watches. Yields the recording at its start and after each
 * piece.
 * @param {EngineHost} engine
 * @param {State} state the state at the start; modified in place, to the state at the end of the recording
 * @param {{ lines: WaveLine[], program: RecordedProgram | null, cycles: number }} recording
 * @param {() => Promise<any>} yieldToMessages called between pieces
 */
export async function* recordPieces(engine, state, { lines, program, cycles }, yieldToMessages) {
  const builder = new WaveBuilder(lines, lines.some(dependsOnCounter));
  builder.begin(new ForecastAnswers(engine.ask(state, `state\n${builder.queries(1)}`).answers));
  const waves = new Waves({ ...builder.take(), lines, listing: [], program });
  yield waves;
  while (builder.elapsed < cycles && !builder.isStuck) {
    const nextCycles = Math.min(PIECE_CYCLES, cycles - builder.elapsed);
    const answers = new ForecastAnswers(engine.serve(state, `${builder.queries(nextCycles)}run ${nextCycles}\nstate\n`, state).answers);
    builder.recordRun(answers);
    builder.recordState(answers.take());
    waves.beginAt(waves.cycles);
    waves.append({ ...builder.take(), listing: [] });
    yield waves;
    await yieldToMessages();
  }
}
