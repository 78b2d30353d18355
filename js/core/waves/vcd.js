// Writes a recording as a VCD file (value change dump, IEEE 1364). For the same lines of a session, the page and `mcs4 wave` write the same
// bytes.

import { CYCLE_TENTHS_US, CYCLE_US } from "../time/mcs4_time.js";
import { isDecoder } from "./decoders.js";

/** @typedef {import("./wave_recording.js").Waves} Waves */

/** The number of time units per cycle. A unit is 100 ns. */
const UNITS_PER_CYCLE = CYCLE_TENTHS_US;
/**
 * A number greater than the number of lines in any recording. `sortChanges` encodes a change as one number: moment * MAX_LINES + index,
 * where `index` is the position of the line among the chosen lines.
 */
const MAX_LINES = 8192;
/** The maximum number of text lines per part of the file. The file has parts because a long recording does not fit into one string. */
const LINES_PER_PART = 100000;
/**
 * The letters of the codes that identify lines in the file. No value in a VCD file starts with one of these letters, so a program that
 * skips an unknown kind of value still reads the following lines correctly.
 */
const CODE_LETTERS = "ACDEFGHIJKLMNOPQSTUVWY";

/**
 * Returns the short code that identifies a signal line in the file.
 * @param {number} number the index of the line, from 0
 */
function createLineCode(number) {
  let text = "";
  const { length } = CODE_LETTERS;
  for (let remaining = number; remaining >= 0; remaining = Math.floor(remaining / length) - 1) {
    text = CODE_LETTERS[remaining % length] + text;
  }
  return text;
}

/**
 * Returns the VCD type and width of a line.
 * @param {Waves} waves
 * @param {number} line
 */
function formatVariableType({ lines }, line) {
  return lines[line].kind === "label" || isDecoder(lines[line]) ? "string 1" : `wire ${lines[line].width}`;
}

/** The text of a VCD file, created in parts, even while the recording grows. */
export class VcdText {
  /**
   * @param {Waves} waves
   * @param {number[]} chosenLines the indices of the lines, in file order
   */
  constructor(waves, chosenLines) {
    this.waves = waves;
    this.chosenLines = chosenLines;
    this.codes = chosenLines.map((_, index) => createLineCode(index));
    /** The start of the recording, which is time 0 in the file. */
    this.startMoment = waves.from;
    /** The last moment written to the file so far. */
    this.lastWritten = waves.from;
  }

  /**
   * Returns the VCD text for a new value of a line.
   * @param {number} index the index of the line in the list of chosen lines
   * @param {number} value
   * @param {number} moment
   */
  formatChange(index, value, moment) {
    const { waves } = this;
    const { program, lines } = waves;
    const line = this.chosenLines[index];
    const { kind, width } = lines[line];
    if (kind === "label") return `s${program && value > 0 ? program.labels[value - 1].name : "-"} ${this.codes[index]}`;
    if (isDecoder(lines[line])) return `s${waves.valueAt(line, moment).replace(/ /g, "_")} ${this.codes[index]}`;
    if (width === 1) return value + this.codes[index];
    return `b${value.toString(2).padStart(width, "0")} ${this.codes[index]}`;
  }

  /** Returns the header of the file, including the values at the start of the recording. */
  formatHeader() {
    const { waves, chosenLines, codes } = this;
    return `${[
      "$version Fethsaim $end",
      `$comment ${UNITS_PER_CYCLE} units of time are a cycle of the 4004, ${CYCLE_US} microseconds $end`,
      "$timescale 100 ns $end",
      "$scope module board $end",
      ...chosenLines.map((line, index) => `$var ${formatVariableType(waves, line)} ${codes[index]} ${waves.lines[line].name} $end`),
      "$upscope $end",
      "$enddefinitions $end",
      "#0",
      "$dumpvars",
      ...chosenLines.map((line, index) => this.formatChange(index, waves.numberAt(line, waves.from), waves.from)),
      "$end",
    ].join("\n")}\n`;
  }

  /** Yields the changes in parts. */
  * formatChanges() {
    const { waves, chosenLines } = this;
    const tracks = chosenLines.map((line) => waves.getTrack(line));
    const counts = new Uint32Array(chosenLines.length);
    let lines = [];
    for (const change of sortChanges(waves, chosenLines)) {
      const moment = Math.floor(change / MAX_LINES);
      const index = change % MAX_LINES;
      counts[index] += 1;
      if (moment !== this.lastWritten) lines.push(`#${(moment - this.startMoment) * UNITS_PER_CYCLE}`);
      this.lastWritten = moment;
      lines.push(this.formatChange(index, tracks[index].valueAfter(counts[index]), moment));
      if (lines.length < LINES_PER_PART) continue;
      yield `${lines.join("\n")}\n`;
      lines = [];
    }
    if (lines.length > 0) yield `${lines.join("\n")}\n`;
  }

  /** Returns the last line of the file, with the end of the recording; "" if the last change is at the end. */
  formatEnd() {
    const { cycles } = this.waves;
    return cycles > this.lastWritten ? `#${(cycles - this.startMoment) * UNITS_PER_CYCLE}\n` : "";
  }
}

/**
 * Returns the encoded changes of the chosen lines, sorted by moment and line.
 * @param {Waves} waves
 * @param {number[]} chosenLines
 */
function sortChanges(waves, chosenLines) {
  const counts = chosenLines.map((line) => waves.changesOf(line).length);
  const encodedChanges = new Float64Array(counts.reduce((sum, count) => sum + count, 0));
  let changeIndex = 0;
  chosenLines.forEach((line, index) => {
    for (const moment of waves.changesOf(line)) {
      encodedChanges[changeIndex] = moment * MAX_LINES + index;
      changeIndex += 1;
    }
  });
  return encodedChanges.sort();
}

/**
 * Yields the file of a complete recording in parts.
 * @param {Waves} waves
 * @param {number[]} chosenLines the indices of the lines, in file order
 */
export function* vcdParts(waves, chosenLines) {
  const text = new VcdText(waves, chosenLines);
  yield text.formatHeader();
  yield* text.formatChanges();
  const end = text.formatEnd();
  if (end) yield end;
}
