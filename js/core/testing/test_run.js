// Runs tests, each in a new session in memory. The page's worker and Node use this module.

import { formatQuantity, hex } from "../bench/numbers.js";
import { parseItems, stateValue } from "../bench/state_line.js";
import { MAX_RUN_CYCLES } from "../engine/key_queue.js";
import { ForecastAnswers, parseTraceLine, rowValues } from "../engine/forecast_answers.js";
import { instructionCycles } from "../engine/rom_codes.js";
import { TOOL_KEY_DOWN_CYCLES, TOOL_KEY_UP_CYCLES } from "../time/mcs4_time.js";
import { traceLastInstructions } from "./last_instructions.js";
import { describeLastLabel } from "./last_label.js";
import { Printout } from "./printout.js";
import { TestSession } from "./test_session.js";
import { listNamedKeys } from "./test_text.js";
import * as say from "../../words/testing.js";

/**
 * @typedef {import("./recorders.js").ExecutionRecorder} ExecutionRecorder
 * @typedef {import("../conditions/condition_language.js").ExtraValues} ExtraValues
 * @typedef {import("../conditions/condition_language.js").Condition} Condition
 * @typedef {import("../engine/engine_host.js").EngineHost} Engine
 * @typedef {import("./test_preparation.js").PreparedTests} PreparedTests
 * @typedef {import("./test_text.js").Action} Action
 * @typedef {import("./test_text.js").ChosenKey} ChosenKey
 * @typedef {import("./test_text.js").Key} Key
 * @typedef {import("./test_text.js").Step} Step
 * @typedef {import("./test_text.js").Test} Test
 *
 * The failure of a test. `source` is the name of the test text. `line` and `text` are the line number and the text of the failed step.
 * `words` is the message. The other members describe the session at this step. `lamps` and `registers` are formatted as in `state`, and
 * `trace` lists the last instructions. `file` is null if the test did not start.
 * @typedef {{ source: string, line: number, text: string, words: string, cycles: number, lamps: string, registers: string, trace: string[],
 *   file: Uint8Array | null }} Failure
 *
 * The outcome of a test: the line number of its `test` line, its length in cycles, and its failure (null if the test passed).
 * @typedef {{ name: string, line: number, cycles: number, failure: Failure | null }} Outcome
 */

/** The interval between two checks of the perceived display or of the printout, in cycles. */
const CHECK_INTERVAL_CYCLES = 1000;

/**
 * Returns the location of a step, as the members `source`, `line` and `text` of a Failure.
 * @param {Step} step
 */
function stepLocation({ source, line, text }) {
  return { source: source.name, line, text };
}

/** Runs tests of a program on a board. */
export class TestRun {
  /**
   * @param {Engine} engine
   * @param {PreparedTests} prepared
   * @param {ExecutionRecorder} recorder
   * @param {() => Promise<void>} yieldToMessages
   * @param {import("../board/face.js").Printer | null} [printer] the printer, if a test has a condition on the printout
   */
  constructor(engine, prepared, recorder, yieldToMessages, printer = null) {
    this.engine = engine;
    this.prepared = prepared;
    this.recorder = recorder;
    this.yieldToMessages = yieldToMessages;
    this.printer = printer;
    /** @type {Map<string, { file: Uint8Array, codes: number[] }>} the saved states with their printouts, by name */
    this.states = new Map();
    /** The number of the test text whose tests saved `states`, from 1. */
    this.textNumber = 1;
    /** The times in cycles for which a key stays down and then up; a `pace` step changes them. */
    this.keyDownCycles = TOOL_KEY_DOWN_CYCLES;
    this.keyUpCycles = TOOL_KEY_UP_CYCLES;
    /** True if a test can change ROM. A test that starts at a saved state then reads the bytes in ROM again. */
    this.changesRom = true;
    /** @type {(session: TestSession) => void} called at the end of each test, with its session */
    this.onEnd = () => {};
  }

  /**
   * Runs a test. Resolves to its outcome. The test fails without a run if no earlier test has saved its start state.
   * @param {Test} test
   * @param {string} savingTestName the name of the test that saves the start state of this test
   * @returns {Promise<Outcome>}
   */
  async run({ textNumber, name, line, from, steps }, savingTestName) {
    if (textNumber !== this.textNumber) this.states.clear();
    this.textNumber = textNumber;
    const startState = from === "" ? { file: this.prepared.file, codes: [] } : this.states.get(from);
    if (!startState) {
      const message = say.stateMissing(from, savingTestName);
      const [step] = steps;
      const failure = { ...stepLocation(step), words: message, cycles: 0, lamps: "", registers: "", trace: [], file: null };
      return { name, line, cycles: 0, failure };
    }
    this.recorder.codes = this.prepared.codes;
    const printout = this.printer && new Printout(this.printer, startState.codes);
    const session = new TestSession(this.engine, startState.file, this.recorder, this.yieldToMessages, printout);
    // The test that saved the state can have changed ROM.
    if (from !== "" && this.changesRom) session.readCodes();
    this.keyDownCycles = TOOL_KEY_DOWN_CYCLES;
    this.keyUpCycles = TOOL_KEY_UP_CYCLES;
    const failure = await this.runSteps(session, steps, []);
    session.end();
    this.onEnd(session);
    return { name, line, cycles: session.elapsed, failure };
  }

  /**
   * Runs steps. Resolves to the failure, or to null if all steps pass.
   * @param {TestSession} session
   * @param {Step[]} steps
   * @param {string[]} enclosingSteps descriptions of the enclosing repeated and shared steps, innermost first
   * @returns {Promise<Failure | null>}
   */
  async runSteps(session, steps, enclosingSteps) {
    for (const step of steps) {
      const { action } = step;
      if ("steps" in action) {
        const failure = await this.runNestedSteps(session, action, step, enclosingSteps);
        if (failure) return failure;
        continue;
      }
      const message = await this.execute(session, action);
      const context = enclosingSteps.length > 0 ? `; in ${enclosingSteps.join(", in ")}` : "";
      if (message !== "") return { ...stepLocation(step), words: message + context, ...this.describeState(session) };
    }
    return null;
  }

  /**
   * Runs repeated or shared steps. Resolves to the first failure, or to null if there is none.
   * @param {TestSession} session
   * @param {Extract<Action, { steps: Step[] }>} action
   * @param {Step} step
   * @param {string[]} enclosingSteps
   */
  async runNestedSteps(session, action, { source, line }, enclosingSteps) {
    if (action.kind === "do") {
      const [first] = action.steps;
      const file = !first || first.source.name === source.name ? "" : source.name;
      return this.runSteps(session, action.steps, [say.describeSharedSteps(action.name, line, file), ...enclosingSteps]);
    }
    for (let repetition = 1; repetition <= action.times; repetition++) {
      const failure = await this.runSteps(session, action.steps, [say.repetitionText(repetition, action.times, line), ...enclosingSteps]);
      if (failure) return failure;
      await this.yieldToMessages();
    }
    return null;
  }

  /**
   * Describes the session state for a failure.
   * @param {TestSession} session
   */
  describeState(session) {
    const [state] = session.ask("state\n");
    const registers = ["acc", "cy", "pc", "dcl", "test", "r"].map((key) => `${key} ${stateValue(state, key)}`).join(" ");
    return {
      cycles: session.elapsed, lamps: parseItems(stateValue(state, "lamps")).join(""), file: session.file.slice(),
      registers: `${registers} ret ${parseItems(stateValue(state, "ret")).join(" ")}`,
      trace: traceLastInstructions(session, this.prepared.names),
    };
  }

  /**
   * Executes a step. Resolves to the error message, or to "".
   * @param {TestSession} session
   * @param {Exclude<Action, { steps: Step[] }>} action
   * @returns {Promise<string>}
   */
  async execute(session, action) {
    if (action.kind === "run") return this.runCycles(session, action.cycles);
    if (action.kind === "until") return this.runUntil(session, action.condition, action.cycles);
    if (action.kind === "expect") return session.check(action.condition).message;
    if ("keys" in action) return this.operateKeys(session, action.keys, action.kind);
    if (action.kind === "set") {
      for (const command of action.commands) session.executeCommand(command);
      if (action.changesRom) session.readCodes();
    }
    if (action.kind === "reset") session.executeCommand("reset");
    if (action.kind === "mark") session.markedCycles = session.elapsed;
    if (action.kind === "pace") [this.keyDownCycles, this.keyUpCycles] = [action.down, action.up];
    if (action.kind === "save") this.save(session, action.state);
    return "";
  }

  /**
   * Saves a session as a named state.
   * @param {TestSession} session
   * @param {string} state the name of the state
   */
  save(session, state) {
    this.engine.prepareForRuns(session.file);
    this.states.set(state, { file: session.file.slice(), codes: session.printedCodes });
  }

  /**
   * Runs some cycles. Resolves to the error message, or to "".
   * @param {TestSession} session
   * @param {number} cycles
   */
  async runCycles(session, cycles) {
    const stop = await session.run(cycles);
    return stop === "code" ? say.runStopped(session.elapsed, this.describeStop(session)) : "";
  }

  /**
   * Describes a stop before a byte that is not an instruction.
   * @param {TestSession} session
   */
  describeStop({ counter }) {
    return say.beforeInvalidOpcode(this.formatAddress(counter));
  }

  /**
   * Returns an address together with its label.
   * @param {number} address
   */
  formatAddress(address) {
    const name = this.prepared.names.map.nameOf(address);
    return `${hex(address, 3)}${name && ` (${name})`}`;
  }

  /**
   * Returns the key that a value in the session currently selects. If the value selects no key, `key` is undefined, and `message` is the
   * error message.
   * @param {TestSession} session
   * @param {ChosenKey} chosen
   * @returns {{ key: Key | undefined, message: string }}
   */
  findSelectedKey(session, { word, place, probe, keys }) {
    const value = parseInt(rowValues(new ForecastAnswers(session.ask(`trace 1 ${probe}\n`)).takeTrace().row)[0], 16);
    const valueText = say.valuePrefix(place, value);
    if (keys.length > 0) return { key: keys[value], message: say.tooFewKeysMessage(valueText, word, formatQuantity(keys.length, "key")) };
    const boardKeys = listNamedKeys(this.prepared.names.face);
    const digit = hex(value, 1);
    const key = boardKeys.get(String(value)) || boardKeys.get(digit);
    return { key, message: say.noKeyForValueMessage(valueText, value, value > 9 ? say.orDigitKey(digit) : "") };
  }

  /**
   * Presses keys, releases keys, or presses and then releases one key after another, depending on `kind`. Resolves to the error message, or
   * to "".
   * @param {TestSession} session
   * @param {(Key | ChosenKey)[]} keys
   * @param {"keys" | "press" | "release"} kind
   */
  async operateKeys(session, keys, kind) {
    for (const chosenKey of keys) {
      const { key, message } = "word" in chosenKey ? this.findSelectedKey(session, chosenKey) : { key: chosenKey, message: "" };
      if (!key) return message;
      const { name, press, release } = key;
      if (kind !== "release") {
        session.executeCommand(press);
        this.recorder.recordPress(name, session.elapsed);
      }
      const errorWhileDown = kind === "keys" ? await this.runCycles(session, this.keyDownCycles) : "";
      if (errorWhileDown !== "") return errorWhileDown;
      if (kind !== "press") session.executeCommand(release);
      const errorWhileUp = kind === "keys" ? await this.runCycles(session, this.keyUpCycles) : "";
      if (errorWhileUp !== "") return errorWhileUp;
    }
    return "";
  }

  /**
   * Runs until a condition is true at the end of an instruction. For a label, runs to the next arrival at the label, even if the session is
   * already there. Resolves to the error message, or to "".
   * @param {TestSession} session
   * @param {Condition} condition
   * @param {number} maxCycles the maximum number of cycles
   */
  async runUntil(session, condition, maxCycles) {
    const startCycles = session.elapsed;
    const isLabel = condition.address >= 0;
    if (!isLabel && session.checkAtInstructionEnd(condition).holds) return "";
    const end = startCycles + maxCycles;
    const stop = isLabel ? await this.runToLabel(session, condition, end) : await this.runToChange(session, condition, end);
    const { holds, message } = isLabel ? session.check(condition) : session.checkAtInstructionEnd(condition);
    if (holds) return "";
    if (stop === "code") return say.runStoppedAt(session.elapsed - startCycles, this.describeStop(session), message);
    return say.notReachedMessage(maxCycles, message, describeLastLabel(session, this.prepared.names.map, condition));
  }

  /**
   * Runs to a label with a temporary breakpoint. Resolves to the reason for the stop ("end" if the time limit is reached).
   * @param {TestSession} session
   * @param {Condition} condition
   * @param {number} end the time limit, in cycles from the start of the test
   */
  async runToLabel(session, { address }, end) {
    const serveBreakpoint = (/** @type {string} */ word) => this.engine.serve(session.file, `${word} ${address}\n`, session.file);
    let stop = "end";
    serveBreakpoint("break");
    while (session.elapsed < end && stop === "end") {
      stop = await session.run(Math.min(end - session.elapsed, MAX_RUN_CYCLES));
    }
    serveBreakpoint("unbreak");
    return stop;
  }

  /**
   * Runs until a condition becomes true. Traces the places in the condition to find this moment. The first traces are short, in case the
   * condition becomes true soon. Resolves to the reason for the stop.
   * @param {TestSession} session
   * @param {Condition} condition
   * @param {number} end the time limit, in cycles from the start of the test
   */
  async runToChange(session, condition, end) {
    const { needs } = condition;
    if (needs.includes("lampForecast") || needs.includes("printed")) return this.runWithPeriodicChecks(session, condition, end);
    let stop = "end";
    // A trace reports neither TEST nor `owed`. TEST does not change during a run, and `owed` is 0 after the first cycle. Therefore, a
    // condition without traced places is checked after one cycle.
    let pieceCycles = condition.places.length > 0 ? 1000 : 1;
    const extraValues = { ...session.readCondition(condition).extraValues, owed: "0" };
    for (; session.elapsed < end && stop === "end"; pieceCycles = pieceCycles < 10000 ? pieceCycles * 10 : MAX_RUN_CYCLES) {
      const maxCycles = end - session.elapsed;
      pieceCycles = Math.min(pieceCycles, maxCycles);
      const cycles = condition.places.length > 0 ? this.countCyclesToChange(session, condition, extraValues, pieceCycles, maxCycles) : 0;
      stop = await session.run(cycles || pieceCycles);
      if (cycles > 0 || (pieceCycles === 1 && session.checkAtInstructionEnd(condition).holds)) break;
    }
    return stop;
  }

  /**
   * Runs until a condition on a perceived display or on the printout is true. Checks the condition at a fixed interval. Resolves to the
   * reason for the stop.
   * @param {TestSession} session
   * @param {Condition} condition
   * @param {number} end the time limit, in cycles from the start of the test
   */
  async runWithPeriodicChecks(session, condition, end) {
    let stop = "end";
    while (session.elapsed < end && stop === "end") {
      stop = await session.run(Math.min(CHECK_INTERVAL_CYCLES, end - session.elapsed));
      if (session.checkAtInstructionEnd(condition).holds) break;
    }
    return stop;
  }

  /**
   * Returns the number of cycles until a condition becomes true within the next `piece` cycles; 0 if it does not become true.
   * @param {TestSession} session
   * @param {Condition} condition
   * @param {ExtraValues} extraValues the values that do not change during a run
   * @param {number} piece the number of cycles to trace
   * @param {number} maxResult the largest possible result
   */
  countCyclesToChange(session, condition, extraValues, piece, maxResult) {
    const { lines } = new ForecastAnswers(session.ask(`trace ${piece} ${condition.places.join(" ")}\n`)).takeTrace();
    for (const line of lines) {
      const { cycles, address, row } = parseTraceLine(line);
      if (!condition.holds(rowValues(row), extraValues)) continue;
      return Math.min(maxResult, cycles + instructionCycles(this.recorder.codes[address]));
    }
    return 0;
  }
}
