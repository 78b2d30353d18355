// The session of a test, in memory. Stores an earlier state and all later actions, from which last_instructions.js lists the last
// instructions. Passes each run to a recorder.

import { LAMPS_FORECAST_QUERY } from "../engine/perceived_text.js";
import { readCounter, readRegisters } from "../bench/answers.js";
import { stateValue } from "../bench/state_line.js";
import { readRomCodes } from "../engine/rom_codes.js";
import { MAX_RUN_CYCLES } from "../engine/key_queue.js";
import { ForecastAnswers, parseTraceLine, rowValues } from "../engine/forecast_answers.js";

/**
 * @typedef {import("./recorders.js").ExecutionRecorder} ExecutionRecorder
 * @typedef {import("../conditions/condition_language.js").ExtraValues} ExtraValues
 * @typedef {import("../conditions/condition_language.js").Condition} Condition
 * @typedef {import("../engine/engine_host.js").EngineHost} Engine
 * @typedef {import("./printout.js").Printout} Printout
 *
 * An action of a test: a bench command, or `run` with its number of cycles.
 * @typedef {{ line: string, cycles: number }} TestAction
 *
 * A stored state: the session file, the cycles of the test up to this state, and the later actions.
 * @typedef {{ file: Uint8Array, elapsed: number, laterActions: TestAction[] }} StoredState
 */

/** The number of cycles at the end of a test for which a failure can list the instructions. */
export const LISTABLE_CYCLES = 26;

export class TestSession {
  /**
   * @param {Engine} engine
   * @param {Uint8Array} file the initial state
   * @param {ExecutionRecorder} recorder
   * @param {() => Promise<void>} yieldToMessages called between pieces of long work; throws if the work is cancelled
   * @param {Printout | null} printout the printout, if a test needs it
   */
  constructor(engine, file, recorder, yieldToMessages, printout = null) {
    this.engine = engine;
    this.file = file.slice();
    /** The session file before the last run. The next run overwrites this buffer. */
    this.previousFile = file.slice();
    this.recorder = recorder;
    this.yieldToMessages = yieldToMessages;
    this.printout = printout;
    /** The cycles of the test so far (`elapsed`), and the value of `elapsed` at the last `mark`. */
    this.elapsed = 0;
    this.markedCycles = 0;
    /** The number of cycles of the last run; 0 before the first run. */
    this.lastRunCycles = 0;
    /** @type {StoredState} */
    this.storedState = { file: file.slice(), elapsed: 0, laterActions: [] };
    this.initialFile = file;
    /** @type {TestAction[]} all actions since the initial state, with consecutive runs joined */
    this.actions = [];
    /** The buffer for the next stored state. */
    this.spareBuffer = new Uint8Array(file.length);
    this.counter = 0;
    this.owed = "0";
    this.storeRegisters(this.ask("regs\n")[0]);
    recorder.begin();
    this.beginsInSecondCycle = this.owed === "1";
  }

  /** The printed codes; empty if the printout is not recorded. */
  get printedCodes() {
    return this.printout ? this.printout.codes : [];
  }

  /**
   * Returns the bench's answers to queries.
   * @param {string} lines
   */
  ask(lines) {
    return this.engine.ask(this.file, lines).answers;
  }

  /**
   * Stores the program counter, and whether a second cycle is pending, from an answer of the bench.
   * @param {string} regs the answer to `regs`
   */
  storeRegisters(regs) {
    const { counter, owed } = readCounter(regs);
    this.counter = parseInt(counter, 16);
    this.owed = owed;
  }

  /**
   * Executes a command other than `run`. Throws if the bench rejects the command.
   * @param {string} line
   */
  executeCommand(line) {
    if (line === "reset" && this.owed === "1") this.subtractLastCycle();
    const [answer, regs] = this.engine.serve(this.file, `${line}\nregs\n`, this.file).answers;
    if (!answer.startsWith("ok ")) throw new Error(`the bench answered ${answer} to: ${line}`);
    this.storeRegisters(regs);
    this.storedState.laterActions.push({ line, cycles: 0 });
    this.actions.push({ line, cycles: 0 });
  }

  /** Reads the bytes in ROM again after they have changed. */
  readCodes() {
    this.recorder.codes = readRomCodes(this.engine, this.file);
  }

  /**
   * Runs for a number of cycles, or until something stops the run. Resolves to the reason for the stop ("end" if all cycles ran).
   * @param {number} cycles
   */
  async run(cycles) {
    for (let remaining = cycles; remaining > 0;) {
      const piece = Math.min(remaining, MAX_RUN_CYCLES);
      const { cycles: cyclesRun, end } = this.runPiece(piece);
      remaining -= cyclesRun;
      if (end !== "end") return end;
      await this.yieldToMessages();
    }
    return "end";
  }

  /**
   * Executes one `run` and updates the recorder, the printout and the actions. Returns the number of cycles that ran, and the reason for
   * the stop.
   * @param {number} cycles the number of cycles, at most MAX_RUN_CYCLES
   */
  runPiece(cycles) {
    if (cycles >= LISTABLE_CYCLES) this.spareBuffer.set(this.file);
    const { recorder, engine, file, printout, previousFile } = this;
    const printoutQueries = printout ? printout.queries(cycles) : "";
    const lines = `${printoutQueries}${recorder.queries(cycles)}run ${cycles}\nregs\n`;
    const answers = new ForecastAnswers(engine.serve(file, lines, previousFile).answers);
    if (printout) printout.readAnswers(answers, this.elapsed);
    recorder.recordRun(answers, this.elapsed, () => new ForecastAnswers(engine.ask(file, `trace ${cycles}\n`).answers));
    const run = answers.takeRun();
    if (this.beginsInSecondCycle && run.cycles > 0) {
      this.beginsInSecondCycle = false;
      recorder.earlierInstructionCycles += 1;
    }
    [this.file, this.previousFile] = [previousFile, file];
    this.storeRegisters(answers.take());
    this.lastRunCycles = run.cycles;
    if (run.cycles >= LISTABLE_CYCLES) {
      const { file: previousBuffer } = this.storedState;
      this.storedState = { file: this.spareBuffer, elapsed: this.elapsed, laterActions: [] };
      this.spareBuffer = previousBuffer;
    }
    if (run.cycles > 0) this.storedState.laterActions.push({ line: "run", cycles: run.cycles });
    this.addRun(run.cycles);
    this.elapsed += run.cycles;
    return run;
  }

  /**
   * Adds a run to `actions`, or extends the last run.
   * @param {number} cycles
   */
  addRun(cycles) {
    const last = this.actions[this.actions.length - 1];
    if (last && last.line === "run") last.cycles += cycles;
    else if (cycles > 0) this.actions.push({ line: "run", cycles });
  }

  /** Subtracts one cycle from the recorded cycles of the last instruction, because its second cycle will not run. */
  subtractLastCycle() {
    if (this.lastRunCycles === 0 || !this.recorder.recordsTimes) return;
    const runLine = this.lastRunCycles > 1 ? `run ${this.lastRunCycles - 1}\n` : "";
    const answers = this.engine.ask(this.previousFile, `${runLine}trace 1\n`).answers.slice(runLine === "" ? 0 : 1);
    const [line] = new ForecastAnswers(answers).takeTrace().lines;
    if (line) this.recorder.subtractLastCycle(parseTraceLine(line).address);
  }

  /**
   * Returns the values of the places that a condition reads (`values`), and the other values that the condition needs (`extraValues`).
   * @param {Condition} condition
   * @returns {{ values: string[], extraValues: ExtraValues }}
   */
  readCondition({ places, needs }) {
    const lampForecast = needs.includes("lampForecast") ? this.ask(LAMPS_FORECAST_QUERY) : [];
    const needsKeys = needs.includes("keys");
    const traceQuery = places.length > 0 ? `trace 1 ${places.join(" ")}\n` : "";
    const answers = new ForecastAnswers(this.ask(`${traceQuery}regs\n${needsKeys ? "state\n" : ""}`));
    const values = places.length > 0 ? rowValues(answers.takeTrace().row) : [];
    const { owed, test } = readRegisters(answers.take());
    const keys = needsKeys ? stateValue(answers.take(), "keys") : "";
    const printed = this.printout ? this.printout.words : [];
    return { values, extraValues: { test, owed, keys, cycles: this.elapsed - this.markedCycles, lampForecast, printed } };
  }

  /**
   * Returns whether a condition is currently true (`holds`). If it is false, `message` contains the actual and the expected value.
   * @param {Condition} condition
   */
  check(condition) {
    const { values, extraValues } = this.readCondition(condition);
    return { holds: condition.holds(values, extraValues), message: condition.explain(values, extraValues) };
  }

  /**
   * Checks a condition like `check`, but the condition must also be true at the end of the instruction, when `owed` is 0. All other effects
   * of an instruction happen in its first cycle.
   * @param {Condition} condition
   */
  checkAtInstructionEnd(condition) {
    const { values, extraValues } = this.readCondition(condition);
    const endValues = { ...extraValues, owed: "0" };
    const message = condition.explain(values, extraValues) || condition.explain(values, endValues);
    return { holds: condition.holds(values, extraValues) && condition.holds(values, endValues), message };
  }

  /** Ends the test. */
  end() {
    if (this.owed === "1") this.subtractLastCycle();
    this.recorder.end(this.elapsed);
  }
}
