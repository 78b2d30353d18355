// Creates the program of a recording: the source lines and labels that the recording shows. The source text must be the program in ROM.

import { SourceMap } from "../machine/source_map.js";

/**
 * @typedef {import("../engine/program_check.js").ProgramCheck} ProgramCheck
 * @typedef {import("../engine/wave_recorder.js").RecordedProgram} RecordedProgram
 */

/**
 * Returns the program of a recording, built from the source map.
 * @param {SourceMap} map
 * @param {string} text
 * @returns {RecordedProgram}
 */
export function createRecordedProgram(map, text) {
  const labels = [...map.labels].map(([address, [name]]) => ({ address, name }));
  return { text, lines: map.lines, labels: labels.sort((one, other) => one.address - other.address) };
}

/**
 * Returns the program of a recording; null if the source is not the program in ROM.
 * @param {ProgramCheck} programCheck the result of comparing the source with ROM
 * @param {string} text
 * @returns {RecordedProgram | null}
 */
export function createProgramFromCheck({ map, refusal, difference }, text) {
  const source = new SourceMap(map, text);
  return refusal || difference || source.lineCount === 0 ? null : createRecordedProgram(source, text);
}
