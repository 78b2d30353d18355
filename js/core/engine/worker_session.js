// The session in the worker: the bytes of its file, the queued key changes, and the methods that use and change them. A method either
// succeeds completely, or throws and changes nothing.

import { CycleCount, findAcceptedCommands } from "./accepted_commands.js";
import { linesWithQueries, splitAnswers } from "./forecast_queries.js";
import { plannedCycles, truncateLines } from "../debug/goal_search.js";
import { isRefusalOrStop, readBoard, readItems, readRun, parseRefusal } from "../bench/answers.js";
import { CancelledError } from "../bench/bench_errors.js";
import { findInputEnd, joinLines, matchAnswers, readInputs } from "../bench/inputs.js";
import { KeyQueue } from "./key_queue.js";
import { buildSnapshot, snapshotQueries } from "../bench/snapshot.js";
import { PieceSize } from "./piece_size.js";
import { readRomCodes } from "./rom_codes.js";
import { EYE_PERSISTENCE_CYCLES } from "../time/mcs4_time.js";
import { MAX_MEASURED_CYCLES } from "./brightness_meter.js";
import { MAX_SEGMENT_ENTRIES, Timeline } from "./timeline.js";

/**
 * @typedef {import("./accepted_commands.js").AcceptedCommand} AcceptedCommand
 * @typedef {import("./engine_host.js").EngineHost} Engine
 * @typedef {import("./engine.js").ServedAnswers} ServedAnswers
 * @typedef {import("../bench/inputs.js").Input} Input
 * @typedef {import("./key_queue.js").PlannedLine} PlannedLine
 * @typedef {import("./live_recorder.js").LiveRecorder} LiveRecorder
 * @typedef {import("./heat_meter.js").HeatMeter} HeatMeter
 * @typedef {import("./heat_meter.js").ChipHeat} ChipHeat
 * @typedef {import("./printer_codes.js").PrinterCodes} PrinterCodes
 * @typedef {import("./brightness_meter.js").BrightnessMeter} BrightnessMeter
 * @typedef {import("./brightness_meter.js").LitShares} LitShares
 * @typedef {import("./buzzer_meter.js").BuzzerLevels} BuzzerLevels
 * @typedef {import("./buzzer_meter.js").BuzzerMeter} BuzzerMeter
 * @typedef {import("../bench/run_log.js").RunEntry} RunEntry
 *
 * An input, the number of lines in its text, and its answer lines.
 * @typedef {{ line: string, textLines: number, answers: string[] }} ServedInput
 *
 * The result of executing lines: the last inputs with their answers (`entries`), the first answer line (`firstAnswer`, "" for none), and
 * the shell's exit status (`status`). `hasChangedRom` and `hasChangedBoard` are true if the lines could have changed ROM or the board.
 * @typedef {{ entries: ServedInput[], firstAnswer: string, status: number, hasChangedRom: boolean, hasChangedBoard: boolean }} LinesResult
 * @typedef {LinesResult & { snapshot: string[] }} ResultAndSnapshot
 *
 * The result of running cycles. `runEntries` lists the executed lines. `end` is the answer that ended the run early, or "". `litShares`,
 * `buzzerLevels` and `chipHeat` are the lamp brightness, the buzzer levels and the RAM changes; each is null if it was not measured.
 * @typedef {{ runEntries: RunEntry[], cycles: number, end: string, changesKeys: boolean, snapshot: string[], litShares: LitShares | null,
 *   buzzerLevels: BuzzerLevels | null, chipHeat: ChipHeat | null }} Frame
 */

/** The maximum number of entries in a result. If more inputs were executed, the result contains the last ones. */
export const MAX_ENTRIES = 400;
/** The maximum number of cycles that a recording replays after lines were executed. If the lines ran more cycles, the recording ends. */
const MAX_REPLAYED_CYCLES = 2000000;
/** The initial, the minimum and the maximum length, in characters, of the pieces in which `serve` executes lines. */
const FIRST_PIECE_LENGTH = 4096;
const MIN_PIECE_LENGTH = 256;
const MAX_PIECE_LENGTH = 1 << 20;

/** @type {Record<string, true>} the kinds of commands that can change ROM */
const ROM_COMMANDS = { poke: true, wire: true, asm: true };

export class WorkerSession {
  /**
   * Opens a session. Throws if the bytes are not a valid session.
   * @param {Engine} engine
   * @param {Uint8Array} file the bytes of the session file; the session changes them
   * @param {CycleCount} [count] the cycle count of the session
   */
  constructor(engine, file, count = new CycleCount()) {
    this.engine = engine;
    this.file = file;
    this.count = count;
    /** The buffer for the next file. A call writes to the buffer and then swaps it with `file`. */
    this.nextFile = new Uint8Array(file.length);
    this.queue = new KeyQueue();
    this.statusQueries = makeStatusQueries(engine, file);
    this.timeline = new Timeline(this);
    /**
     * @type {AcceptedCommand[]} the breakpoint changes since the last move back or forward; the next command first adds them to the past
     */
    this.unrecordedCommands = [];
    /** @type {Uint8Array | null} the bytes in ROM; null until they are read */
    this.cachedRomBytes = null;
    /** @type {LiveRecorder | null} the recorder of the board's signal lines */
    this.recorder = null;
    /** @type {PrinterCodes | null} the printout of the board's printer */
    this.printerCodes = null;
    /** @type {BuzzerMeter | null} reports the edges of a signal line while the machine runs; null if not requested */
    this.buzzerMeter = null;
    /** @type {BrightnessMeter | null} measures lamp brightness while the machine runs; null if not requested */
    this.brightnessMeter = null;
    /** @type {HeatMeter | null} counts RAM changes while the machine runs; null if not requested */
    this.heatMeter = null;
  }

  /** Ends the measurements of lamps, buzzer and RAM, because the board has changed. */
  forgetMeters() {
    this.brightnessMeter = null;
    this.buzzerMeter = null;
    this.heatMeter = null;
  }

  /** The recorder if it is recording, otherwise null. */
  get recording() {
    return this.recorder && this.recorder.isOn ? this.recorder : null;
  }

  /** The bytes of ROM, by address; cached until ROM changes. */
  get romBytes() {
    if (!this.cachedRomBytes) this.cachedRomBytes = readRomCodes(this.engine, this.file);
    return this.cachedRomBytes;
  }

  /**
   * Returns the answers to queries. The session does not change.
   * @param {string} lines
   */
  ask(lines) {
    return this.engine.ask(this.file, lines).answers;
  }

  /** Returns a snapshot of the session. */
  takeSnapshot() {
    return takeSnapshotOf(this.engine, this.file, this.statusQueries);
  }

  /** Replaces the session file with the new file, which the last `servePlannedLines` has written to `nextFile`. */
  adoptResult() {
    [this.file, this.nextFile] = [this.nextFile, this.file];
  }

  /**
   * Runs the next cycles with the key changes that become due, and takes a snapshot, all in one call of the engine.
   * @param {number} cycles
   * @returns {Frame}
   */
  advance(cycles) {
    return this.runPlannedLines(this.queue.plan(cycles));
  }

  /**
   * Executes planned lines and takes a snapshot.
   * @param {PlannedLine[]} plannedLines
   * @returns {Frame}
   */
  runPlannedLines(plannedLines) {
    const { servedLines, answers, snapshot, measurements } = this.servePlannedLines(plannedLines);
    this.adoptResult();
    const runs = answers.map(readRun);
    /** @type {(index: number) => number} */
    const cyclesOf = (index) => (runs[index] || { cycles: 0 }).cycles;
    this.queue.markExecuted(servedLines, cyclesOf);
    const executedCommands = servedLines.map(({ line }, index) => ({ line, cycles: cyclesOf(index), resets: false }));
    this.record(executedCommands.filter((_, index) => parseRefusal(answers[index]) === null));
    const runEntries = servedLines.map(({ line, change }, index) => (
      { line, answer: answers[index], runs: change ? 0 : 1, cycles: cyclesOf(index) }));
    const lastAnswer = answers[answers.length - 1] || "";
    if (isRefusalOrStop(lastAnswer)) this.timeline.recordStop();
    return {
      runEntries,
      cycles: runs.reduce((sum, run) => sum + (run ? run.cycles : 0), 0),
      end: isRefusalOrStop(lastAnswer) ? lastAnswer : "",
      changesKeys: servedLines.some((servedLine) => servedLine.change !== null),
      snapshot,
      ...measurements,
    };
  }

  /**
   * Adds accepted commands to the cycle count and to the past.
   * @param {AcceptedCommand[]} commands
   */
  record(commands) {
    this.count.add(commands);
    if (commands.length === 0) return;
    this.timeline.record([...this.unrecordedCommands, ...commands], this);
    this.unrecordedCommands = [];
  }

  /**
   * Replaces the session with its state at another moment. Returns whether the board has changed.
   * @param {{ file: Uint8Array, count: CycleCount }} target the session at that moment
   */
  replaceState({ file, count }) {
    const statusQueries = makeStatusQueries(this.engine, file);
    const hasChangedBoard = statusQueries.board.join("\n") !== this.statusQueries.board.join("\n");
    this.file = file.slice();
    this.count = count.copy();
    this.statusQueries = statusQueries;
    this.queue.clear();
    this.unrecordedCommands = [];
    this.cachedRomBytes = null;
    if (this.recorder) this.recorder.stop("back");
    if (hasChangedBoard) this.forgetMeters();
    return hasChangedBoard;
  }

  /** The breakpoint addresses in the bench. */
  get breakpointAddresses() {
    return readItems(this.ask("breaks\n")[0]).map((address) => parseInt(address, 16));
  }

  /**
   * Changes breakpoints after a move back or forward. The changes are added to the past together with the next command. Until then, a move
   * forward stays possible.
   * @param {string} lines commands that change breakpoints
   */
  changeBreakpoints(lines) {
    const inputs = readInputs(lines);
    const { answers } = this.engine.serve(this.file, lines, this.file);
    this.unrecordedCommands = findAcceptedCommands(inputs, answers.map((answer) => [answer]));
  }

  /**
   * Executes planned lines up to the first run that stops early, up to the first rejected line, or until a recording stops the machine.
   * Tries all lines in one call. If the machine must stop before the end of the last line, discards the result and executes only the lines
   * up to that point. Writes the new session file to `nextFile`.
   * @param {PlannedLine[]} plannedLines
   */
  servePlannedLines(plannedLines) {
    let result = this.tryPlannedLines(plannedLines);
    const stopIndex = result.answers.findIndex((answer, index) => index < plannedLines.length && isRefusalOrStop(answer));
    let servedLines = plannedLines;
    if (stopIndex >= 0 && stopIndex < plannedLines.length - 1) {
      servedLines = plannedLines.slice(0, stopIndex + 1);
      result = this.tryPlannedLines(servedLines);
    }
    const { recording } = this;
    const stopCycle = recording ? recording.recordLines(servedLines, result.tracedAnswers, result.answers) : -1;
    if (stopCycle >= 0) {
      servedLines = truncateLines(servedLines, stopCycle);
      result = this.tryPlannedLines(servedLines);
    }
    const answers = result.answers.slice(0, servedLines.length);
    const snapshot = buildSnapshot(this.statusQueries.inputs, result.answers.slice(servedLines.length));
    return { servedLines, answers, snapshot, measurements: result.readMeters() };
  }

  /**
   * Returns the meters of lamps, buzzer and RAM that measure the effect of planned lines. A meter is null if it is not requested, or
   * if the lines run too many cycles.
   * @param {PlannedLine[]} plannedLines
   */
  metersFor(plannedLines) {
    const isShort = plannedLines.reduce((sum, plannedLine) => sum + plannedCycles(plannedLine), 0) <= MAX_MEASURED_CYCLES;
    const { brightnessMeter, buzzerMeter, heatMeter } = this;
    return isShort ? { brightnessMeter, buzzerMeter, heatMeter } : { brightnessMeter: null, buzzerMeter: null, heatMeter: null };
  }

  /** Returns a forecast of the lamp brightness and the RAM changes in the next 30 ms; each is null if not requested. */
  forecastMeters() {
    const { brightnessMeter, heatMeter } = this;
    return {
      litShares: brightnessMeter && brightnessMeter.take([this.ask(brightnessMeter.queries(EYE_PERSISTENCE_CYCLES))]),
      chipHeat: heatMeter && heatMeter.take([this.ask(heatMeter.queries(EYE_PERSISTENCE_CYCLES))]),
    };
  }

  /**
   * Executes planned lines together with all queries, in one call of the engine. Writes the new session file to `nextFile`; `file` does not
   * change. Returns the answers to the lines and to the snapshot queries, the recorder's answers, and a function that reads the meters.
   * @param {PlannedLine[]} plannedLines
   */
  tryPlannedLines(plannedLines) {
    const { recording, printerCodes } = this;
    const { brightnessMeter, buzzerMeter, heatMeter } = this.metersFor(plannedLines);
    /** @type {import("./forecast_queries.js").QuerySource[]} */
    const querySources = [printerCodes, brightnessMeter, buzzerMeter, heatMeter, recording].flatMap((querySource) => querySource || []);
    const lines = linesWithQueries(plannedLines, querySources) + this.statusQueries.lines;
    const { answers, sourceAnswers } = splitAnswers(plannedLines, querySources, this.engine.serve(this.file, lines, this.nextFile).answers);
    /** @type {(querySource: import("./forecast_queries.js").QuerySource) => string[][]} */
    const answersTo = (querySource) => sourceAnswers[querySources.indexOf(querySource)];
    const readMeters = () => {
      if (printerCodes) printerCodes.readCodes(answersTo(printerCodes), this.count.total);
      return {
        litShares: brightnessMeter && brightnessMeter.take(answersTo(brightnessMeter)),
        buzzerLevels: buzzerMeter && buzzerMeter.take(answersTo(buzzerMeter)),
        chipHeat: heatMeter && heatMeter.take(answersTo(heatMeter)),
      };
    };
    return { answers, readMeters, tracedAnswers: recording ? sourceAnswers[querySources.length - 1] : [] };
  }

  /**
   * Adds the effect of executed lines to the recording. If there are too many lines or cycles, ends the recording instead.
   * @param {Uint8Array} fileBefore the session file before the lines
   * @param {AcceptedCommand[]} commands
   */
  addToRecording(fileBefore, commands) {
    const { recording } = this;
    if (!recording) return;
    const total = commands.reduce((sum, { cycles }) => sum + cycles, 0);
    if (commands.length > MAX_SEGMENT_ENTRIES || total > MAX_REPLAYED_CYCLES) recording.stop("lines");
    else recording.recordCommands(fileBefore, commands);
  }

  /**
   * Executes lines piece by piece. Nothing changes if a piece throws or the work is cancelled. If a piece ends with an exit status other
   * than 0, the later pieces are not executed.
   * @param {string} lines
   * @param {(done: number) => Promise<boolean>} shouldContinue called after each piece with the number of processed characters; resolves to
   *   true to continue
   * @returns {Promise<ResultAndSnapshot>}
   */
  async serve(lines, shouldContinue) {
    const report = new LinesReport(this.count.copy());
    const fileBefore = this.recording ? this.file.slice() : null;
    const printerCodes = this.printerCodes && this.printerCodes.copy();
    // Each piece runs on `sourceFile` and writes to `targetFile`. The session file does not change until all pieces are done.
    let [sourceFile, targetFile] = [this.file, this.nextFile];
    const pieceSize = new PieceSize(FIRST_PIECE_LENGTH, MIN_PIECE_LENGTH, MAX_PIECE_LENGTH);
    for (let offset = 0; offset < lines.length;) {
      const end = findInputEnd(lines, offset, pieceSize.size);
      const pieceLines = lines.slice(offset, end);
      const servedAnswers = pieceSize.measure(() => {
        const result = this.engine.serve(sourceFile, pieceLines, targetFile);
        const { total } = report.count;
        const acceptedCommands = report.add(pieceLines, result);
        if (printerCodes) printerCodes.collectCodes(this.engine, sourceFile.slice(), acceptedCommands, total);
        return result;
      });
      [sourceFile, targetFile] = [targetFile, sourceFile === this.file ? new Uint8Array(sourceFile.length) : sourceFile];
      offset = end;
      if (servedAnswers.status !== 0) break;
      if (offset < lines.length && !(await shouldContinue(offset))) throw new CancelledError();
    }
    const statusQueries = report.hasChangedBoard ? makeStatusQueries(this.engine, sourceFile) : this.statusQueries;
    const snapshot = takeSnapshotOf(this.engine, sourceFile, statusQueries);
    // Nothing after this point can fail, so the session can change now.
    if (sourceFile !== this.file) [this.file, this.nextFile] = [sourceFile, this.file];
    this.statusQueries = statusQueries;
    if (report.hasChangedRom) this.cachedRomBytes = null;
    this.timeline.recordStop();
    this.count = report.count;
    this.printerCodes = printerCodes;
    if (report.acceptedCommands.length > 0) this.timeline.record([...this.unrecordedCommands.splice(0), ...report.acceptedCommands], this);
    this.timeline.recordStop();
    // The queued key changes are for the old board.
    if (report.hasChangedBoard) this.queue.clear();
    if (report.hasChangedBoard) this.forgetMeters();
    if (fileBefore) this.addToRecording(fileBefore, report.acceptedCommands);
    return { ...report.result(), snapshot };
  }
}

/**
 * The answer to `board`, and the snapshot queries for that board: as lines, and parsed as inputs.
 * @typedef {{ board: string[], lines: string, inputs: Input[] }} StatusQueries
 */

/**
 * Returns the status queries for the board in a session file.
 * @param {Engine} engine
 * @param {Uint8Array} file
 * @returns {StatusQueries}
 */
function makeStatusQueries(engine, file) {
  const board = engine.ask(file, "board\n").answers;
  const lines = joinLines(snapshotQueries(readBoard(board)));
  return { board, lines, inputs: readInputs(lines) };
}

/**
 * Returns a snapshot of a session file.
 * @param {Engine} engine
 * @param {Uint8Array} file
 * @param {StatusQueries} statusQueries
 */
function takeSnapshotOf(engine, file, { lines, inputs }) {
  return buildSnapshot(inputs, engine.ask(file, lines).answers);
}

/** Collects the results of the pieces in which `serve` executes lines. */
class LinesReport {
  /** @param {CycleCount} count the cycle count before the first piece */
  constructor(count) {
    this.count = count;
    /** @type {AcceptedCommand[]} the accepted commands; incomplete if there are too many to replay */
    this.acceptedCommands = [];
    /** @type {ServedInput[]} */
    this.entries = [];
    this.firstAnswer = "";
    this.status = 0;
    this.hasChangedRom = false;
    this.hasChangedBoard = false;
  }

  /**
   * Adds the result of a piece; returns the accepted commands of the piece.
   * @param {string} lines
   * @param {ServedAnswers} result
   */
  add(lines, { status, answers }) {
    const inputs = readInputs(lines);
    const answerLists = matchAnswers(inputs, answers);
    const acceptedCommands = findAcceptedCommands(inputs, answerLists);
    this.count.add(acceptedCommands);
    if (this.acceptedCommands.length <= MAX_SEGMENT_ENTRIES) this.acceptedCommands = this.acceptedCommands.concat(acceptedCommands);
    if (this.firstAnswer === "" && answers.length > 0) this.firstAnswer = answers[0];
    this.status = status;
    this.hasChangedRom = this.hasChangedRom || inputs.some((input) => ROM_COMMANDS[input.kind]);
    // If the bench rejects a board text, the board does not change.
    const hasWired = inputs.some((input, index) => input.kind === "wire" && !answerLists[index].some(isRefusalOrStop));
    this.hasChangedBoard = this.hasChangedBoard || hasWired;
    const from = Math.max(0, inputs.length - MAX_ENTRIES);
    const entries = inputs.slice(from).map(({ line, text }, index) => (
      { line, textLines: text.length, answers: answerLists[from + index] }));
    this.entries = [...this.entries, ...entries].slice(-MAX_ENTRIES);
    return acceptedCommands;
  }

  /** @returns {LinesResult} */
  result() {
    const { entries, firstAnswer, status, hasChangedRom, hasChangedBoard } = this;
    return { entries, firstAnswer, status, hasChangedRom, hasChangedBoard };
  }
}
