// Builds a recording from the bench's answers: the moments at which signal lines change, and at which instructions start.

import { MAX_PLACES } from "../bench/inputs.js";
import { stateValue } from "../bench/state_line.js";
import { NumberQueue } from "../waves/number_queue.js";
import { Track, createEmptyTrack } from "../waves/track.js";
import { parseTraceLine, rowValues } from "./forecast_answers.js";

/**
 * @typedef {import("./forecast_answers.js").ForecastAnswers} ForecastAnswers
 * @typedef {import("../waves/track.js").TrackData} TrackData
 * @typedef {import("../waves/wave_lines.js").WaveLine} WaveLine
 *
 * A reader of a signal line: the index of the line (`member`), and a function that converts the value of a `trace` place to the value of
 * the line.
 * @typedef {{ member: number, read: (answer: string) => number }} Reader
 *
 * A `trace` place, the readers of its signal lines, and the character positions at which its value starts and ends in each row.
 * @typedef {{ place: string, readers: Reader[], from: number, to: number }} Field
 *
 * The `trace` places of one query, and the last row of their values that the bench reported; "" before the first row.
 * @typedef {{ fields: Field[], row: string }} QueryGroup
 *
 * The part of a recording since the last call of `take`. RecordedPart in wave_recorder.js explains the members.
 * @typedef {{ from: number, cycles: number, isStuck: boolean, isOwed: boolean, tracks: TrackData[], moments: Uint32Array,
 *   counters: Uint16Array }} WavePart
 */

/** The character codes of a blank, 0 and 9. */
const BLANK_CODE = 32;
const ZERO_CODE = 48;
const NINE_CODE = 57;

/**
 * Returns the value of the upper-case hexadecimal digit at an index in a line.
 * @param {string} line
 * @param {number} index
 */
function digitAt(line, index) {
  const code = line.charCodeAt(index);
  return code <= NINE_CODE ? code - ZERO_CODE : code - 55;
}

/**
 * Returns the `trace` place that reports a board line, and a function that reads the line from the value. A port reports a digit whose bit
 * k is line k. A chain reports its bits.
 * @param {string} line the board line, such as `rom0.3`, `ram0.1.3` or `chain0.5`
 */
function placeOfBoardLine(line) {
  const dotIndex = line.lastIndexOf(".");
  const [place, bit] = [line.slice(0, dotIndex), Number(line.slice(dotIndex + 1))];
  /** @type {(answer: string) => number} */
  const read = place.startsWith("chain") ? (answer) => Number(answer[bit]) : (answer) => (parseInt(answer, 16) >> bit) & 1;
  return { place, read };
}

/**
 * Returns one field for each `trace` place that signal lines of a kind use. A field contains the readers of these lines.
 * @param {WaveLine[]} lines
 * @param {"level" | "value"} kind the kind of lines
 */
function fieldsForKind(lines, kind) {
  /** @type {Map<string, Reader[]>} */
  const places = new Map();
  lines.forEach((line, member) => {
    if (line.kind !== kind) return;
    for (const { place, read } of kind === "level" ? [placeOfBoardLine(line.places[0])] : placesOfDigits(line.places)) {
      places.set(place, [...(places.get(place) || []), { member, read }]);
    }
  });
  return [...places].map(([place, readers]) => ({ place, readers, from: 0, to: 0 }));
}

/**
 * Returns one `trace` place per digit of a value, each with a function that reads the digit and returns the value of all digits read so
 * far.
 * @param {string[]} places most significant digit first
 */
function placesOfDigits(places) {
  const digits = places.map(() => "0");
  return places.map((place, index) => ({
    place,
    read: (/** @type {string} */ answer) => {
      digits[index] = answer;
      return parseInt(digits.join(""), 16);
    },
  }));
}

/**
 * Returns the `trace` places of signal lines in groups, one group per query. Board lines and values are in separate groups because values
 * change far more often.
 * @param {WaveLine[]} lines
 */
function groupPlaces(lines) {
  /** @type {QueryGroup[]} */
  const groups = [];
  for (const places of [fieldsForKind(lines, "level"), fieldsForKind(lines, "value")]) {
    for (let from = 0; from < places.length; from += MAX_PLACES) groups.push({ fields: places.slice(from, from + MAX_PLACES), row: "" });
  }
  return groups;
}

/**
 * Sets the position of each `trace` place in the rows of a group. The length of each value is constant.
 * @param {QueryGroup} group
 * @param {string} row
 */
function setPositions({ fields }, row) {
  let from = 1;
  rowValues(row).forEach((value, index) => {
    fields[index].from = from;
    fields[index].to = from + value.length;
    from += value.length + 1;
  });
}

/**
 * Returns whether two rows are equal in a range of characters.
 * @param {string} left
 * @param {string} right
 * @param {number} from
 * @param {number} to
 */
function isSameRange(left, right, from, to) {
  for (let index = from; index < to; index++) if (left.charCodeAt(index) !== right.charCodeAt(index)) return false;
  return true;
}

/** Builds a recording from the answers to its `trace` queries, to runs and to `state`. */
export class WaveBuilder {
  /**
   * @param {WaveLine[]} lines
   * @param {boolean} [hasCounter] true to record the start of each instruction
   */
  constructor(lines, hasCounter = true) {
    this.lines = lines;
    this.hasCounter = hasCounter;
    this.elapsed = 0;
    /** True if the opcode at the program counter is not an instruction. */
    this.isStuck = false;
    this.isSecondCycle = false;
    this.hasStarted = false;
    this.groups = groupPlaces(lines);
    this.tracks = lines.map(({ width }) => new Track(createEmptyTrack(width)));
    this.moments = new NumberQueue(new Uint32Array(0));
    this.counters = new NumberQueue(new Uint16Array(0));
    /** The moment at which the previous part ended. */
    this.from = 0;
  }

  /**
   * Returns the queries to send before a run: a `trace` of all instructions, and a `trace` for each group of places.
   * @param {number} cycles the length of the run
   */
  queries(cycles) {
    const groups = this.groups.map(({ fields }) => `trace ${cycles} ${fields.map(({ place }) => place).join(" ")}\n`);
    return `${this.hasCounter ? `trace ${cycles}\n` : ""}${groups.join("")}`;
  }

  /**
   * Reads the initial values from the answers to `state` and to the queries.
   * @param {ForecastAnswers} answers
   */
  begin(answers) {
    const state = answers.take();
    this.isSecondCycle = stateValue(state, "owed") === "1";
    this.recordState(state);
    if (this.hasCounter) answers.takeTrace();
    for (const group of this.groups) this.recordRow(group, answers.takeTrace().row, 0);
    for (const track of this.tracks) track.takeData();
  }

  /**
   * Records a run, from the answers to the queries before the run and the answer to the run itself. Throws an error if no cycle ran, unless
   * the opcode at the program counter is not an instruction.
   * @param {ForecastAnswers} answers
   */
  recordRun(answers) {
    this.recordForecast(answers);
    const run = answers.takeRun();
    if (run.cycles === 0 && run.end !== "code") throw new Error(`unexpected end of a recorded run: ${run.end}`);
    this.recordEnd(run);
  }

  /**
   * Records the forecast of a run from the answers to the queries before the run.
   * @param {ForecastAnswers} answers
   */
  recordForecast(answers) {
    if (this.hasCounter) for (const line of answers.takeTrace().lines) this.recordInstructionLine(line);
    for (const group of this.groups) {
      const trace = answers.takeTrace();
      // A command before the run may have changed the row.
      this.recordRow(group, trace.row, this.elapsed);
      for (const line of trace.lines) {
        const { cycles, row } = parseTraceLine(line);
        this.recordRow(group, row, this.elapsed + cycles + 1);
      }
    }
  }

  /**
   * Records the start of the instruction in a trace line such as `5 00A`. A frame has more than a thousand such lines, so this method
   * parses them character by character.
   * @param {string} line
   */
  recordInstructionLine(line) {
    let cycles = 0;
    let index = 0;
    for (let code = line.charCodeAt(0); code !== BLANK_CODE; code = line.charCodeAt(index)) {
      cycles = 10 * cycles + code - ZERO_CODE;
      index += 1;
    }
    const address = 256 * digitAt(line, index + 1) + 16 * digitAt(line, index + 2) + digitAt(line, index + 3);
    this.recordInstruction(this.elapsed + cycles, address);
  }

  /**
   * Adds the length of a run to `elapsed`, and records whether an invalid opcode stopped the run.
   * @param {import("./forecast_answers.js").RunResult} run
   */
  recordEnd({ cycles, end }) {
    this.elapsed += cycles;
    this.isStuck = end === "code";
  }

  /**
   * Records the keys, the TEST pin and the program counter. Called after a command, and at the end of a part of the recording.
   * @param {string} state the answer to `state`
   */
  recordState(state) {
    const keys = `,${stateValue(state, "keys")},`;
    const test = Number(stateValue(state, "test"));
    this.lines.forEach(({ kind, places }, member) => {
      if (kind === "key") this.tracks[member].set(Number(keys.includes(`,${places[0]},`)), this.elapsed);
      if (kind === "test") this.tracks[member].set(test, this.elapsed);
    });
    // During the second cycle of an instruction, the counter already points to the next instruction.
    if (stateValue(state, "owed") === "0" || !this.hasStarted) {
      this.recordInstruction(this.elapsed, parseInt(stateValue(state, "pc"), 16));
    }
  }

  /**
   * Records the start of an instruction. Replaces the recorded program counter if an instruction was already recorded at this moment.
   * @param {number} moment
   * @param {number} counter the program counter
   */
  recordInstruction(moment, counter) {
    this.hasStarted = true;
    if (this.moments.last === moment) {
      this.counters.last = counter;
      return;
    }
    this.moments.push(moment);
    this.counters.push(counter);
  }

  /**
   * Reads a row of values, and records the values that have changed.
   * @param {QueryGroup} group
   * @param {string} row the values of the places, each preceded by a blank
   * @param {number} moment
   */
  recordRow(group, row, moment) {
    if (row === group.row) return;
    if (group.row === "") setPositions(group, row);
    for (const { readers, from, to } of group.fields) {
      if (isSameRange(row, group.row, from, to)) continue;
      const field = row.slice(from, to);
      for (const { member, read } of readers) this.tracks[member].set(read(field), moment);
    }
    group.row = row;
  }

  /**
   * Returns the part of the recording since the previous call of this method.
   * @returns {WavePart}
   */
  take() {
    const { from, elapsed, isStuck, isSecondCycle } = this;
    this.from = elapsed;
    this.isSecondCycle = false;
    const tracks = this.tracks.map((track) => track.takeData());
    const [moments, counters] = [this.moments.takeAll(), this.counters.takeAll()];
    return { from, cycles: elapsed, isStuck, isOwed: isSecondCycle, tracks, moments, counters };
  }
}
