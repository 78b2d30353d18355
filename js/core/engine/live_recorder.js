// Records the signal lines of a board while the machine runs. The recorder adds queries before each run, and the bench forecasts the run.
// The recorder can stop the machine only at the end of a triggered recording. The page receives the recording in parts. A moment is a
// number of cycles since the start of the recording.

import { readBoard, readRun } from "../bench/answers.js";
import { ADDRESS_COUNT } from "../bench/rom_bytes.js";
import { createBoardLines } from "../waves/wave_lines.js";
import { linesWithQueries, splitAnswers, createReplayLine } from "./forecast_queries.js";
import { ForecastAnswers, parseTraceLine, rowValues } from "./forecast_answers.js";
import { listingLinesAt } from "./wave_recorder.js";
import { WaveBuilder } from "./wave_builder.js";
import { RECORDING_PIECE_CYCLES, RECORDING_PIECE_UNITS } from "./piece_size.js";

/**
 * @typedef {import("./accepted_commands.js").AcceptedCommand} AcceptedCommand
 * @typedef {import("./engine_host.js").EngineHost} Engine
 * @typedef {import("./forecast_queries.js").SentLine} SentLine
 * @typedef {import("./wave_recorder.js").Recording} Recording
 * @typedef {import("./wave_recorder.js").RecordedPart} RecordedPart
 * @typedef {import("./wave_recorder.js").Texts} Texts
 * @typedef {import("../waves/trigger.js").Trigger} Trigger
 *
 * Settings: the number of cycles to record after the trigger (`cyclesAfterTrigger`), and whether the machine stops at the end of the
 * recording.
 * @typedef {{ cyclesAfterTrigger: number, stopsMachine: boolean }} LiveSetup
 *
 * A part of a recording. `triggerMoment`: the moment of the trigger, -1 before the trigger. `endReason`: the reason why the recording
 * ended, or "" while it continues. The reasons are:
 * - "hand": the user ended the recording;
 * - "trigger": the recording is complete;
 * - "board", "program": the board or the program changed;
 * - "back": the session moved back or forward;
 * - "lines": too many lines were entered, or the lines ran too many cycles;
 * - "long": the recording is too long.
 * @typedef {RecordedPart & { triggerMoment: number, endReason: string }} LivePart
 */

/** The maximum length of a recording in cycles. A moment is stored in 32 bits. */
const MAX_MOMENT = 4000000000;

export class LiveRecorder {
  /**
   * @param {Engine} engine
   * @param {Uint8Array} file the current session file
   * @param {Texts} texts
   */
  constructor(engine, file, texts) {
    this.engine = engine;
    this.texts = texts;
    this.lines = createBoardLines(readBoard(engine.ask(file, "board\n").answers), texts.board, texts.program !== null, texts.values);
    this.builder = new WaveBuilder(this.lines);
    this.builder.begin(new ForecastAnswers(engine.ask(file, `state\n${this.builder.queries(1)}`).answers));
    /** @type {Trigger | null} */
    this.trigger = null;
    /** @type {LiveSetup} */
    this.options = { cyclesAfterTrigger: 0, stopsMachine: false };
    this.triggerMoment = -1;
    this.endReason = "";
    /** True if the trigger condition was true at the last check. The initial value is true, because only a change to true triggers. */
    this.wasTrue = true;
    /** True if the machine must stop because the recording is complete. */
    this.mustStopMachine = false;
    /** 1 for each address whose listing line has already been sent to the page. */
    this.listedAddresses = new Uint8Array(ADDRESS_COUNT);
    /** The `trace` places of the trigger condition, separated by blanks; "" if there are none, and after the trigger. */
    this.tracedPlaces = "";
  }

  /**
   * Sets the trigger and the settings.
   * @param {Trigger | null} trigger
   * @param {LiveSetup} options
   */
  setTrigger(trigger, options) {
    this.trigger = trigger;
    this.options = options;
    this.tracedPlaces = trigger && trigger.places.length > 0 && trigger.address < 0 ? trigger.places.join(" ") : "";
  }

  /** True until the recording ends. */
  get isOn() {
    return this.endReason === "";
  }

  /** The moment at which the recording ends; Infinity before the trigger. */
  get endMoment() {
    return this.triggerMoment < 0 ? Infinity : this.triggerMoment + this.options.cyclesAfterTrigger;
  }

  /**
   * Returns the start of a recording, which the page extends with the later parts. Called once, before the first call of `takePart`.
   * @param {Uint8Array} file
   * @returns {Recording}
   */
  takeRecording(file) {
    return { ...this.takePart(file), lines: this.lines, program: this.texts.program };
  }

  /**
   * Returns the part of the recording since the previous call.
   * @param {Uint8Array} file
   * @returns {LivePart}
   */
  takePart(file) {
    const part = this.builder.take();
    const newAddresses = [...new Set(part.counters)].filter((address) => this.listedAddresses[address] === 0);
    for (const address of newAddresses) this.listedAddresses[address] = 1;
    const { engine, triggerMoment, endReason } = this;
    return { ...part, listing: listingLinesAt(engine, file, newAddresses), triggerMoment, endReason };
  }

  /**
   * Ends the recording, unless it has already ended.
   * @param {string} reason the reason, as in `endReason` of LivePart
   */
  stop(reason) {
    if (this.isOn) this.endReason = reason;
  }

  // --- While the machine runs ---

  /**
   * Returns the queries to send before a run.
   * @param {number} cycles the length of the run
   */
  queries(cycles) {
    return `${this.builder.queries(cycles)}${this.tracedPlaces ? `trace ${cycles} ${this.tracedPlaces}\n` : ""}`;
  }

  /** The number of queries before each run. */
  get count() {
    return 1 + this.builder.groups.length + Number(this.tracedPlaces !== "");
  }

  /** True because the recorder reads the answer to `state` after each line that is not a run. */
  get needsStates() {
    return true;
  }

  /**
   * Records the effect of planned lines. Returns the number of cycles, counted from the first line, after which the machine must stop; -1
   * if the machine continues.
   * @param {SentLine[]} plannedLines
   * @param {string[][]} tracedAnswers the answers to the queries before each line
   * @param {string[]} answers the answers to the lines, followed by the answer to `state`
   */
  recordLines(plannedLines, tracedAnswers, answers) {
    const { builder, trigger } = this;
    const startMoment = builder.elapsed;
    const instructionCount = builder.moments.count;
    const earlierChangeCounts = trigger ? trigger.members.map((member) => builder.tracks[member].moments.count) : [];
    plannedLines.forEach(({ change }, index) => {
      const lineAnswers = new ForecastAnswers(tracedAnswers[index]);
      if (change) {
        builder.recordState(lineAnswers.take());
        return;
      }
      const from = builder.elapsed;
      builder.recordForecast(lineAnswers);
      if (this.tracedPlaces) this.triggerOnCondition(lineAnswers, from);
      builder.recordEnd(readRun(answers[index]) || { cycles: 0, end: answers[index] });
    });
    builder.recordState(answers[plannedLines.length]);
    if (trigger && trigger.edge) this.triggerOnEdge(trigger, earlierChangeCounts);
    else if (trigger && trigger.address >= 0) this.triggerOnArrival(trigger.address, instructionCount);
    return this.endIfComplete(startMoment, instructionCount);
  }

  /**
   * Sets the trigger moment to the first moment at which the trigger condition becomes true in a run.
   * @param {ForecastAnswers} answers
   * @param {number} from the moment before the run
   */
  triggerOnCondition(answers, from) {
    const { row, lines } = answers.takeTrace();
    this.checkCondition(rowValues(row), from);
    for (const line of lines) {
      const traced = parseTraceLine(line);
      this.checkCondition(rowValues(traced.row), from + traced.cycles + 1);
    }
  }

  /**
   * Checks the trigger condition at a moment. If the condition became true, sets the trigger moment.
   * @param {string[]} values the values of the traced places
   * @param {number} moment
   */
  checkCondition(values, moment) {
    const isTrue = this.trigger !== null && this.trigger.holds(values);
    if (isTrue && !this.wasTrue && this.triggerMoment < 0) this.triggerMoment = moment;
    this.wasTrue = isTrue;
  }

  /**
   * Sets the trigger moment to the first matching edge of the trigger's signal lines.
   * @param {Trigger} trigger
   * @param {number[]} counts the number of earlier changes of each line
   */
  triggerOnEdge({ members, edge }, counts) {
    if (this.triggerMoment >= 0) return;
    const level = { rises: 1, falls: 0, changes: -1 }[edge || "changes"];
    const edgeMoments = members.flatMap((member, index) => {
      const track = this.builder.tracks[member];
      const moments = [...track.moments.all.subarray(counts[index])];
      return moments.find((_, offset) => level < 0 || track.valueAfter(counts[index] + offset + 1) === level) ?? [];
    });
    if (edgeMoments.length > 0) this.triggerMoment = Math.min(...edgeMoments);
  }

  /**
   * Sets the trigger moment to the next start of an instruction at an address. Ignores the instruction at which the recording starts.
   * @param {number} address
   * @param {number} earlierCount the number of earlier instructions
   */
  triggerOnArrival(address, earlierCount) {
    if (this.triggerMoment >= 0) return;
    const [moments, counters] = [this.builder.moments.all, this.builder.counters.all];
    const arrivalIndex = moments.findIndex((moment, index) => index >= earlierCount && moment > 0 && counters[index] === address);
    if (arrivalIndex >= 0) this.triggerMoment = moments[arrivalIndex];
  }

  /**
   * Ends the recording if it is complete or too long. Returns the number of cycles after `startMoment` at which the machine must stop: the
   * start of the next instruction. Returns -1 if the machine continues.
   * @param {number} startMoment
   * @param {number} earlierCount the number of instructions before `startMoment`
   */
  endIfComplete(startMoment, earlierCount) {
    const { builder, endMoment, options } = this;
    if (builder.elapsed >= MAX_MOMENT) this.stop("long");
    if (this.triggerMoment >= 0) this.tracedPlaces = "";
    if (builder.elapsed < endMoment) return -1;
    this.stop("trigger");
    if (!options.stopsMachine) return -1;
    this.mustStopMachine = true;
    const stopMoment = builder.moments.all.subarray(earlierCount).find((moment) => moment >= endMoment);
    return (stopMoment === undefined ? builder.elapsed : stopMoment) - startMoment;
  }

  // --- While the machine is paused ---

  /**
   * Records the effect of lines that were executed while the machine was paused, by executing the lines again on a copy of the session.
   * If a line changed the board or the program, ends the recording instead.
   * @param {Uint8Array} file a copy of the session file before the lines; modified in place
   * @param {AcceptedCommand[]} commands
   */
  recordCommands(file, commands) {
    const { engine } = this;
    if (commands.some(({ line }) => /^\s*wire/.test(line))) this.stop("board");
    else if (commands.some(({ line }) => /^\s*(asm|poke\s+rom)/.test(line))) this.stop("program");
    for (let index = 0; index < commands.length && this.isOn;) {
      const startIndex = index;
      const end = Math.min(commands.length, startIndex + RECORDING_PIECE_UNITS);
      for (let cycles = 0; index < end && cycles < RECORDING_PIECE_CYCLES; index++) cycles += commands[index].cycles;
      const plannedLines = commands.slice(startIndex, index).map(createReplayLine);
      const { answers: allAnswers } = engine.serve(file, `${linesWithQueries(plannedLines, [this])}state\n`, file);
      const { sourceAnswers: [tracedAnswers], answers } = splitAnswers(plannedLines, [this], allAnswers);
      this.recordLines(plannedLines, tracedAnswers, answers);
      this.mustStopMachine = false;
    }
  }
}
