// Recorders of the instructions, calls and key presses in a test. An ExecutionRecorder counts the starts, the jumps and the cycles of each
// instruction. It also measures each call, and the time from a key press to a lamp change. The numbers come from the queries `count` and
// `trace`, which predict a run before it is executed. The subclasses record less, for tools that print no profile.

import { ADDRESS_COUNT } from "../bench/rom_bytes.js";
import { parseTraceLine } from "../engine/forecast_answers.js";
import { instructionCycles, isCall, isReturn, jumpTarget } from "../engine/rom_codes.js";

/**
 * @typedef {import("../engine/forecast_answers.js").ForecastAnswers} ForecastAnswers
 * @typedef {import("../engine/forecast_answers.js").InstructionCount} InstructionCount
 *
 * The calls of a routine. `callCount` is the number of calls, and `cyclesWithCalls` their total cycles including nested calls.
 * `longestCall` is the length of the longest call in cycles.
 * @typedef {{ callCount: number, cyclesWithCalls: number, longestCall: number }} CallCounts
 *
 * The response times of a key. `presses` is the number of its presses, and `answered` counts the presses after which a lamp changed.
 * `first` is the longest time from a press to the first lamp change, in cycles. `last` is the longest time from a press to the last lamp
 * change before the next press.
 * @typedef {{ presses: number, answered: number, first: number, last: number }} KeyTimes
 *
 * A call in progress: the address of the routine, and the time at which the routine starts, in cycles.
 * @typedef {{ address: number, startTime: number }} OpenCall
 */

/** The maximum number of open calls: a 4004 stores three return addresses. */
export const MAX_CALL_DEPTH = 3;

export class ExecutionRecorder {
  /** @param {Uint8Array} codes the contents of ROM */
  constructor(codes) {
    this.codes = codes;
    /** Three counts for the instruction at each address: how often it started, how often it jumped, and its cycles. */
    this.startCounts = new Float64Array(ADDRESS_COUNT);
    this.jumpCounts = new Float64Array(ADDRESS_COUNT);
    this.cycleCounts = new Float64Array(ADDRESS_COUNT);
    /** The cycles of instructions that had started before the test in which they ended. */
    this.earlierInstructionCycles = 0;
    /** The total cycles of the tests that have ended. */
    this.total = 0;
    /** @type {Map<number, CallCounts>} the calls, by routine address */
    this.calls = new Map();
    /** @type {Map<string, KeyTimes>} the key times, by key name, in the order of first presses */
    this.keys = new Map();
    /** @type {OpenCall[]} the calls in progress, innermost last */
    this.openCalls = [];
    /** The last key press: its key and time, and the times of the first and last lamp change since then (0 for none), in cycles. */
    this.lastPress = { key: "", pressTime: 0, first: 0, last: 0 };
  }

  /** True if the recorder records cycles, calls and key times. */
  get recordsTimes() {
    return true;
  }

  /** Starts recording a test. */
  begin() {
    this.openCalls = [];
    this.lastPress.key = "";
  }

  /**
   * Returns the queries that the bench must answer before a run.
   * @param {number} cycles the length of the run
   */
  queries(cycles) {
    return `count ${cycles}\ntrace ${cycles} ret\n${this.lastPress.key === "" ? "" : `trace ${cycles} lamps\n`}`;
  }

  /**
   * Records a run.
   * @param {ForecastAnswers} answers the answers of the bench to `queries` before the run
   * @param {number} elapsed the cycles from the start of the test to the run
   * @param {() => ForecastAnswers} askAll returns the answer with a trace of all instructions in the run
   */
  recordRun(answers, elapsed, askAll) {
    const callAndReturnCount = this.addCounts(answers.takeCounts());
    const lines = answers.takeTrace().lines;
    if (this.lastPress.key !== "") this.trackLampChanges(answers.takeTrace().lines, elapsed);
    // The short trace omits a JMS or BBL that does not change the return addresses. If a line is missing, a full trace is used instead.
    this.trackCalls(lines.length === callAndReturnCount ? lines : askAll().takeTrace().lines, elapsed);
  }

  /**
   * Counts the instructions in a run. Returns the number of calls and returns (JMS and BBL) in the run.
   * @param {InstructionCount[]} counts
   */
  addCounts(counts) {
    let callAndReturnCount = 0;
    for (const { address, startCount, jumpCount } of counts) {
      const code = this.codes[address];
      this.startCounts[address] += startCount;
      this.jumpCounts[address] += Math.max(0, jumpCount);
      this.cycleCounts[address] += instructionCycles(code) * startCount;
      if (isCall(code)) this.getCallCounts(jumpTarget(this.codes, address)).callCount += startCount;
      if (isCall(code) || isReturn(code)) callAndReturnCount += startCount;
    }
    return callAndReturnCount;
  }

  /**
   * Returns the call counts of a routine. Creates them at the first call.
   * @param {number} address
   * @returns {CallCounts}
   */
  getCallCounts(address) {
    const counts = this.calls.get(address) || { callCount: 0, cyclesWithCalls: 0, longestCall: 0 };
    this.calls.set(address, counts);
    return counts;
  }

  /**
   * Tracks the calls and returns in trace lines. The return stack has three entries, so a fourth nested call overwrites the return address
   * of the first one.
   * @param {string[]} lines
   * @param {number} elapsed the cycles from the start of the test to the run
   */
  trackCalls(lines, elapsed) {
    for (const line of lines) {
      const { cycles, address } = parseTraceLine(line);
      const code = this.codes[address];
      if (isCall(code)) {
        if (this.openCalls.length === MAX_CALL_DEPTH) this.openCalls.shift();
        this.openCalls.push({ address: jumpTarget(this.codes, address), startTime: elapsed + cycles + 2 });
      } else if (isReturn(code) && this.openCalls.length > 0) this.endInnermostCall(elapsed + cycles + 1);
    }
  }

  /**
   * Ends the innermost call and adds its cycles to the counts of its routine. Ignores a recursive call, because the cycles of the outer
   * call of the same routine include those of the recursive one. If the test ends during the JMS, the call has 0 cycles.
   * @param {number} time the time at which the call ends, in cycles
   */
  endInnermostCall(time) {
    const endedCall = this.openCalls.pop();
    if (!endedCall || this.openCalls.some(({ address }) => address === endedCall.address)) return;
    const cycles = Math.max(0, time - endedCall.startTime);
    const calls = this.getCallCounts(endedCall.address);
    calls.cyclesWithCalls += cycles;
    calls.longestCall = Math.max(calls.longestCall, cycles);
  }

  /**
   * Records the first and last lamp change since the last key press. A lamp changes when the instruction that sets the lamp ends, one cycle
   * after the time in the trace line.
   * @param {string[]} lines
   * @param {number} elapsed the cycles from the start of the test to the run
   */
  trackLampChanges(lines, elapsed) {
    if (lines.length === 0) return;
    const [first, last] = [lines[0], lines[lines.length - 1]].map((line) => elapsed + parseTraceLine(line).cycles + 1);
    if (this.lastPress.first === 0) this.lastPress.first = first;
    this.lastPress.last = last;
  }

  /**
   * Records a key press.
   * @param {string} key the name of the key
   * @param {number} elapsed the cycles from the start of the test to the press
   */
  recordPress(key, elapsed) {
    this.finishLastPress();
    this.lastPress = { key, pressTime: elapsed, first: 0, last: 0 };
  }

  /** Adds the last key press to the key times. */
  finishLastPress() {
    const { key, pressTime, first, last } = this.lastPress;
    if (key === "") return;
    const times = this.keys.get(key) || { presses: 0, answered: 0, first: 0, last: 0 };
    this.keys.set(key, times);
    times.presses += 1;
    if (first > 0) {
      times.answered += 1;
      times.first = Math.max(times.first, first - pressTime);
      times.last = Math.max(times.last, last - pressTime);
    }
    this.lastPress.key = "";
  }

  /**
   * Subtracts one cycle from the instruction at an address, because the test ended or reset the machine before the second cycle of this
   * instruction.
   * @param {number} address
   */
  subtractLastCycle(address) {
    this.cycleCounts[address] -= 1;
  }

  /**
   * Ends the recording of a test.
   * @param {number} elapsed the length of the test in cycles
   */
  end(elapsed) {
    while (this.openCalls.length > 0) this.endInnermostCall(elapsed);
    this.finishLastPress();
    this.total += elapsed;
  }
}

/** A recorder for coverage, which records only how often each instruction starts and jumps. */
export class LineRecorder extends ExecutionRecorder {
  get recordsTimes() {
    return false;
  }

  /**
   * Returns the query that the bench must answer before a run.
   * @param {number} cycles
   */
  queries(cycles) {
    return `count ${cycles}\n`;
  }

  /**
   * Counts the instructions in a run.
   * @param {ForecastAnswers} answers
   */
  recordRun(answers) {
    this.addCounts(answers.takeCounts());
  }
}

/** A recorder that records nothing and sends no queries. */
export class NullRecorder extends ExecutionRecorder {
  get recordsTimes() {
    return false;
  }

  queries() {
    return "";
  }

  recordRun() {
    // There is no answer to read.
  }
}
