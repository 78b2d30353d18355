// Reports common programming mistakes as they happen (docs/MANUAL.md, "Common mistakes"):
// - a fourth nested JMS;
// - a BBL without a call;
// - a WRR at a port without outputs, or an RDR at a port without inputs;
// - a write to a chip that is not on the board;
// - an instruction at an address outside the program text;
// - a WRR or RDR that uses a different ROM than at its last execution, because the last SRC selected a ROM for another instruction.
//
// Before each run, this module asks the bench what the run will do. It does not simulate instructions. src_selection.js tracks the chips
// and registers that SRC selects.
//
//     const commonMistakes = new CommonMistakes(session);
//     commonMistakes.beginRun();                         before the machine runs; each kind is then reported once
//     const { mistakes, stop } = commonMistakes.searchLines(lines);     before the lines run
//     stop                                               the cycles up to a mistake that stops the machine, -1 for none

import { readBoard } from "../bench/answers.js";
import { hex } from "../bench/numbers.js";
import { Probes } from "../conditions/probes.js";
import { findLiveReturns, addressOfCall } from "../machine/return_addresses.js";
import { isCall, isReturn, readRomCodes } from "../engine/rom_codes.js";
import { ForecastAnswers, rowValues } from "../engine/forecast_answers.js";
import { plannedCycles, truncateLines } from "./goal_search.js";
import { SrcSelection, usesSelection } from "./src_selection.js";
import * as say from "../../words/debug.js";

/**
 * @typedef {import("../machine/source_map.js").SourceMap} SourceMap
 * @typedef {import("../engine/key_queue.js").PlannedLine} PlannedLine
 * @typedef {import("../engine/forecast_answers.js").Trace} Trace
 * @typedef {import("../engine/worker_session.js").WorkerSession} WorkerSession
 * @typedef {"calls" | "return" | "lines" | "chip" | "bytes" | "source"} Kind
 *
 * A mistake: the address of the instruction, the number of cycles before it, and a description. `isRepeat` is true if a mistake of the same
 * kind was reported before.
 * @typedef {{ kind: Kind, address: number, cycles: number, message: string, isRepeat?: boolean }} CommonMistake
 * @typedef {import("../conditions/condition_language.js").Condition} Condition
 * @typedef {{ mistakes: CommonMistake[], stop: number }} FoundMistakes the mistakes in some lines, and the number of cycles before the
 *   mistake that stops the machine (-1 for none)
 */

/** The number of kinds of mistakes. */
const KIND_COUNT = Object.keys(say.MISTAKE_KINDS).length;
/**
 * The number of cycles in which every instruction is checked, after the machine starts and after each key change: half a second of a real
 * 4004. After these cycles, only samples are checked.
 */
const FULLY_CHECKED_CYCLES = 50000;
/** One in CALLS_PER_SAMPLE calls of `searchLines` checks a sample of SAMPLE_CYCLES cycles. */
const CALLS_PER_SAMPLE = 16;
const SAMPLE_CYCLES = 2000;
/**
 * The maximum number of cycles that a call of `searchLines` checks. At full speed, the lines of one call run for more cycles, and a check
 * of all cycles would be too slow.
 */
export const MAX_CYCLES_PER_CALL = 10000;

/** @type {FoundMistakes} */
const NO_MISTAKES = { mistakes: [], stop: -1 };

/** Finds common mistakes in the next lines of a session. */
export class CommonMistakes {
  /** @param {WorkerSession} session */
  constructor(session) {
    this.session = session;
    /** @type {Set<Kind>} the kinds that stop the machine */
    this.stoppingKinds = new Set();
    /** @type {Map<Kind, Condition>} by kind, the condition under which a mistake stops the machine; evaluated before the instruction */
    this.conditions = new Map();
    /** @type {SourceMap | null} the source map of the program in ROM; null if the source is unknown */
    this.map = null;
    /** @type {Uint8Array | null} the contents of ROM; null until they are read */
    this.codes = null;
    /** @type {SrcSelection | null} the chips and registers that SRC has selected; null until the board is read */
    this.selection = null;
    /** @type {Set<Kind>} the kinds reported since the machine started */
    this.reportedKinds = new Set();
    /** The address of the last mistake that stopped the machine, -1 for none. */
    this.stopAddress = -1;
    /**
     * The address of the mistake at which the machine stopped and from which it continues, -1 for none. This mistake is not reported again.
     */
    this.skippedAddress = -1;
    /** The number of cycles in which every instruction will still be checked. */
    this.remainingCycles = FULLY_CHECKED_CYCLES;
    this.callCount = 0;
  }

  /** Forgets the mistakes of the last run, so that the next run can report each kind of mistake again. */
  beginRun() {
    this.reportedKinds.clear();
    this.remainingCycles = FULLY_CHECKED_CYCLES;
    this.skippedAddress = this.stopAddress;
    this.stopAddress = -1;
  }

  /**
   * Discards the cached contents of ROM, and what is known about the selection by SRC. Called after any change of the session except a run.
   */
  forgetRom() {
    this.codes = null;
    this.selection = null;
  }

  /**
   * Returns the mistakes in the next lines, up to the first mistake that stops the machine. Checks only the cycles that `cyclesToCheck`
   * chooses.
   * @param {PlannedLine[]} plannedLines the next lines
   * @param {Uint8Array} [file] the session file as it was before the lines ran; omitted if they have not run yet
   * @returns {FoundMistakes}
   */
  searchLines(plannedLines, file = this.session.file) {
    const maxCycles = this.cyclesToCheck(plannedLines);
    if (maxCycles === 0 || (this.reportedKinds.size === KIND_COUNT && this.conditions.size === 0)) return NO_MISTAKES;
    const allMistakes = this.findMistakes(truncateLines(plannedLines, maxCycles), file);
    const stoppingMistake = allMistakes.find((mistake) => this.stopsMachine(mistake, plannedLines, file));
    const mistakes = allMistakes.filter(({ isRepeat }) => !isRepeat);
    if (!stoppingMistake) return { mistakes, stop: -1 };
    this.stopAddress = stoppingMistake.address;
    return { mistakes: mistakes.filter((mistake) => mistake.cycles <= stoppingMistake.cycles), stop: stoppingMistake.cycles };
  }

  /**
   * Returns whether a mistake stops the machine.
   * @param {CommonMistake} mistake
   * @param {PlannedLine[]} plannedLines the lines with the mistake
   * @param {Uint8Array} file the session file before these lines run
   */
  stopsMachine({ kind, cycles }, plannedLines, file) {
    if (!this.stoppingKinds.has(kind)) return false;
    const condition = this.conditions.get(kind);
    if (!condition) return true;
    const linesBefore = truncateLines(plannedLines, cycles);
    const probes = new Probes(condition.places);
    const lines = linesBefore.map(({ line }) => `${line}\n`).join("") + probes.lines;
    const answers = new ForecastAnswers(this.session.engine.ask(file, lines).answers);
    answers.skip(linesBefore.length);
    return condition.holds(probes.takeValues(answers));
  }

  /**
   * Returns the number of cycles to check in the next lines, at most MAX_CYCLES_PER_CALL. In the first FULLY_CHECKED_CYCLES cycles after
   * the machine starts or a key changes, all cycles up to this limit are checked. If mistakes stop the machine and the lines do not exceed
   * the limit, all cycles are always checked. Otherwise only a sample is checked, because a check runs each cycle three more times.
   * @param {PlannedLine[]} plannedLines
   */
  cyclesToCheck(plannedLines) {
    const cycles = plannedLines.reduce((sum, plannedLine) => sum + plannedCycles(plannedLine), 0);
    if (plannedLines.some(({ change }) => change !== null)) this.remainingCycles = FULLY_CHECKED_CYCLES;
    this.callCount += 1;
    const checksAll = this.stoppingKinds.size > 0 && cycles <= MAX_CYCLES_PER_CALL;
    const sampleCycles = this.callCount % CALLS_PER_SAMPLE === 0 ? SAMPLE_CYCLES : 0;
    const maxCycles = checksAll ? cycles : Math.min(cycles, MAX_CYCLES_PER_CALL, Math.max(this.remainingCycles, sampleCycles));
    this.remainingCycles = Math.max(0, this.remainingCycles - maxCycles);
    return maxCycles;
  }

  /** Returns the contents of ROM, and the object that tracks the selection by SRC. If they are not cached, reads them from the session. */
  readRom() {
    const { engine, file, statusQueries } = this.session;
    this.codes = this.codes || readRomCodes(engine, file);
    this.selection = this.selection || new SrcSelection(readBoard(statusQueries.board));
    return { codes: this.codes, selection: this.selection };
  }

  /**
   * Returns all mistakes in the planned lines.
   * @param {PlannedLine[]} plannedLines
   * @param {Uint8Array} file the session file before the lines run
   */
  findMistakes(plannedLines, file) {
    const { engine } = this.session;
    const { codes, selection } = this.readRom();
    const lines = plannedLines.map((plannedLine) => {
      const cycles = plannedCycles(plannedLine);
      return plannedLine.change ? `${plannedLine.line}\n` : `trace ${cycles} src dcl ret\ntrace ${cycles}\n${plannedLine.line}\n`;
    });
    const answers = new ForecastAnswers(engine.ask(file, `state\n${lines.join("")}`).answers);
    selection.readLatchedBytes(answers.take());
    /** @type {CommonMistake[]} */
    const mistakes = [];
    let doneCycles = 0;
    for (const { change } of plannedLines) {
      if (change) {
        answers.take();
        continue;
      }
      const [changes, instructions] = [answers.takeTrace(), answers.takeTrace()];
      this.checkRun({ codes, selection, cyclesBefore: doneCycles }, changes, instructions.lines, mistakes);
      const { cycles, end } = answers.takeRun();
      doneCycles += cycles;
      if (end !== "end") break;
    }
    return mistakes;
  }

  /**
   * Checks the instructions of a run.
   * @param {{ codes: Uint8Array, selection: SrcSelection, cyclesBefore: number }} context the bytes of ROM, the selection by SRC, and the
   *   number of cycles before the run
   * @param {Trace} changes the trace of the places `src`, `dcl` and `ret`
   * @param {string[]} instructions the trace lines of all instructions
   * @param {CommonMistake[]} mistakes receives the mistakes
   */
  checkRun({ codes, selection, cyclesBefore }, changes, instructions, mistakes) {
    let values = rowValues(changes.row);
    let changeIndex = 0;
    for (const line of instructions) {
      const blankIndex = line.indexOf(" ");
      const address = parseInt(line.slice(blankIndex + 1), 16);
      const code = codes[address];
      const hasChanged = changeIndex < changes.lines.length && changes.lines[changeIndex].startsWith(line);
      if (hasChanged || usesSelection(code) || isCall(code) || isReturn(code) || this.isOutsideProgram(address)) {
        const cycles = cyclesBefore + Number(line.slice(0, blankIndex));
        const mistake = this.findMistake(codes, address, values) || selection.findMistake(code, address, values);
        this.addMistake(mistakes, address, cycles, mistake);
        if (hasChanged) {
          values = rowValues(changes.lines[changeIndex].slice(line.length));
          changeIndex += 1;
        }
        selection.applyInstruction(code, address, values);
      }
    }
  }

  /**
   * Adds a mistake. If its kind was reported before and has no condition, ignores the mistake. Also ignores the mistake at `skippedAddress`
   * if the run starts there.
   * @param {CommonMistake[]} mistakes receives the mistake
   * @param {number} address the address of the instruction
   * @param {number} cycles the cycles before the instruction
   * @param {{ kind: Kind, message: string } | null} mistake null if the instruction has no mistake
   */
  addMistake(mistakes, address, cycles, mistake) {
    const isSkipped = cycles === 0 && address === this.skippedAddress;
    if (cycles === 0) this.skippedAddress = -1;
    if (!mistake || isSkipped) return;
    const isRepeat = this.reportedKinds.has(mistake.kind);
    if (isRepeat && !this.conditions.has(mistake.kind)) return;
    this.reportedKinds.add(mistake.kind);
    mistakes.push({ ...mistake, address, cycles, ...(isRepeat ? { isRepeat } : {}) });
  }

  /**
   * Returns the mistake if an instruction is outside the program, a return without a call, or a fourth nested call; otherwise null.
   * @param {Uint8Array} codes the bytes of ROM
   * @param {number} address
   * @param {string[]} values the values of src, dcl and ret before the instruction
   * @returns {{ kind: Kind, message: string } | null}
   */
  findMistake(codes, address, values) {
    const code = codes[address];
    if (this.isOutsideProgram(address)) return { kind: "bytes", message: say.LEFT_PROGRAM };
    if (!isCall(code) && !isReturn(code)) return null;
    const returns = values[2].split(",").map((digits) => parseInt(digits, 16));
    const [newestDigits, , oldestDigits] = returns.map((returnAddress) => hex(returnAddress, 3));
    const liveFlags = findLiveReturns(returns, returns.map((returnAddress) => hex(codes[addressOfCall(returnAddress)], 2)), this.map);
    if (isReturn(code)) return liveFlags[0] ? null : { kind: "return", message: say.returnWithoutCall(newestDigits) };
    return liveFlags[2] ? { kind: "calls", message: say.returnAddressLost(oldestDigits) } : null;
  }

  /**
   * Returns whether an address is outside the program text; false if the source is unknown.
   * @param {number} address
   */
  isOutsideProgram(address) {
    return this.map !== null && this.map.lineOf(address) === 0;
  }
}
