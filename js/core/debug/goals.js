// Creates watchers for the goals of moves. A watcher detects whether a run reaches the goal. Most watchers query the bench before a run,
// because the answers describe what the run will do.

import { readBoard, readCounter, readRegisters } from "../bench/answers.js";
import { parsePlace } from "../conditions/places.js";
import { addressOfCall } from "../machine/return_addresses.js";
import { MAX_RUN_CYCLES } from "../engine/key_queue.js";
import { isCall, isReturn, readRomCodes } from "../engine/rom_codes.js";
import { parseTraceLine } from "../engine/forecast_answers.js";
import { becomesTrue } from "./condition_search.js";

/**
 * @typedef {import("../engine/engine_host.js").EngineHost} Engine
 * @typedef {import("../engine/forecast_answers.js").ForecastAnswers} ForecastAnswers
 * @typedef {import("../engine/forecast_answers.js").TracedInstruction} TracedInstruction
 * @typedef {import("./condition_search.js").SearchCondition} SearchCondition
 *
 * The goal of a move, by its `kind`. `over`: the end of the next instruction, or of the subroutine that this instruction calls. `out`: the
 * return from the current subroutine. `here`: an arrival at an address. `count`: a number of instructions. `change`: a change of a place.
 * `when`: a condition becomes true; `searchCondition` is the compiled condition.
 * @typedef {{ kind: "over" } | { kind: "out" } | { kind: "here", address: number } | { kind: "count", count: number } | { kind: "change",
 * place: string } | { kind: "when", condition: string, searchCondition?: SearchCondition }} Goal
 *
 * The result of a search for a goal. `cycles`: the number of cycles up to the goal or an earlier stop. `end`: the bench's reason for an
 * early end of the run, or one of these words:
 * - "bound": the search reached its limit;
 * - "lacks": the board lacks the place;
 * - "outside": the program is in no subroutine.
 * @typedef {{ cycles: number, isReached: boolean, end: string }} SearchResult
 *
 * The watcher of a goal. `setupLine`: a bench line to send once before all runs, "" for none. `maxRun`: returns the maximum length of the
 * next run in cycles. `queriesBefore`: returns the queries before a run. `queriesAfter`: the queries after a run. `readAnswers`: reads the
 * answers to the queries and to the run, and returns the result. `endsAtReturn`: true if a return from a subroutine reaches the goal.
 * @typedef {{ setupLine: string, maxRun: () => number, queriesBefore: (cycles: number) => string, queriesAfter: string,
 *   readAnswers: (answers: ForecastAnswers) => SearchResult, endsAtReturn: boolean }} Watcher
 */

/** The maximum length of a piece of a search, in cycles. */
export const MAX_PIECE_CYCLES = 4 * MAX_RUN_CYCLES;

/**
 * Parses an answer to `regs`. Returns the program counter, and whether the second cycle of an instruction is pending
 * (`isSecondCyclePending`).
 * @param {string} regs
 */
export function parseCounter(regs) {
  const { counter, owed } = readCounter(regs);
  return { counter: parseInt(counter, 16), isSecondCyclePending: owed === "1" };
}

/**
 * Returns a watcher that examines the lines of a trace.
 * @param {string} places the trace places, each preceded by a blank
 * @param {(traced: TracedInstruction) => number} cyclesToGoal returns the cycles up to the goal if an instruction reaches it, otherwise -1
 * @returns {Watcher}
 */
function createTraceWatcher(places, cyclesToGoal) {
  return {
    setupLine: "",
    maxRun: () => MAX_PIECE_CYCLES,
    queriesBefore: (cycles) => `trace ${cycles}${places}\n`,
    queriesAfter: "",
    readAnswers: (answers) => {
      const { lines } = answers.takeTrace();
      const run = answers.takeRun();
      for (const line of lines) {
        const cycles = cyclesToGoal(parseTraceLine(line));
        if (cycles >= 0) return { cycles, isReached: true, end: "" };
      }
      return { ...run, isReached: false };
    },
    endsAtReturn: false,
  };
}

/**
 * Returns a watcher for a condition that becomes true. If a key change between two runs makes the condition true, the goal is one cycle
 * after the start of the second run.
 * @param {SearchCondition} condition
 * @returns {Watcher}
 */
function createConditionWatcher(condition) {
  let lastRow = "";
  const watcher = createTraceWatcher(` ${condition.places.join(" ")}`, () => -1);
  return {
    ...watcher,
    readAnswers: (answers) => {
      const { row, lines } = answers.takeTrace();
      const run = answers.takeRun();
      if (lastRow !== "" && becomesTrue(condition, lastRow, row)) return { cycles: 1, isReached: true, end: "" };
      lastRow = row;
      for (const line of lines) {
        const { cycles, row: nextRow } = parseTraceLine(line);
        if (becomesTrue(condition, lastRow, nextRow)) return { cycles: cycles + 1, isReached: true, end: "" };
        lastRow = nextRow;
      }
      return { ...run, isReached: false };
    },
  };
}

/**
 * Returns a watcher for a return to a call depth. The depth is 0 at the start of the move. Each JMS adds 1, and each BBL subtracts 1.
 * @param {Uint8Array} codes the bytes of ROM
 * @param {number} targetDepth the depth to reach: 0 for the return from the next call, -1 for the return from the current subroutine
 * @returns {Watcher}
 */
function createReturnWatcher(codes, targetDepth) {
  let depth = 0;
  const watcher = createTraceWatcher(" ret", ({ cycles, address }) => {
    if (isCall(codes[address])) depth += 1;
    if (!isReturn(codes[address])) return -1;
    depth -= 1;
    return depth <= targetDepth ? cycles + 1 : -1;
  });
  return { ...watcher, endsAtReturn: true };
}

/**
 * Returns a watcher for a number of instructions. A run of N cycles completes at most N instructions, so no run passes the goal.
 * @param {number} count the number of instructions
 * @param {boolean} isSecondCyclePending true if the second cycle of an instruction is pending
 * @returns {Watcher}
 */
function createInstructionCountWatcher(count, isSecondCyclePending) {
  let instructionsLeft = count;
  let wasSecondCyclePending = isSecondCyclePending;
  return {
    setupLine: "",
    maxRun: () => instructionsLeft,
    queriesBefore: (cycles) => `count ${cycles}\n`,
    queriesAfter: "regs\n",
    readAnswers: (answers) => {
      const startedCount = answers.takeCounts().reduce((sum, instruction) => sum + instruction.startCount, 0);
      const run = answers.takeRun();
      const isNowSecondCyclePending = parseCounter(answers.take()).isSecondCyclePending;
      instructionsLeft -= startedCount + Number(wasSecondCyclePending) - Number(isNowSecondCyclePending);
      wasSecondCyclePending = isNowSecondCyclePending;
      return instructionsLeft === 0 ? { cycles: run.cycles, isReached: true, end: "" } : { ...run, isReached: false };
    },
    endsAtReturn: false,
  };
}

/**
 * Returns a watcher that sets a breakpoint at an address, in the copy of the session that the search runs. If the bench already has the
 * maximum number of breakpoints, returns a watcher that examines all instructions.
 * @param {Engine} engine
 * @param {Uint8Array} file
 * @param {number} address
 * @returns {Watcher}
 */
function createAddressWatcher(engine, file, address) {
  const setupLine = `break ${address}\n`;
  const [answer] = engine.ask(file, setupLine).answers;
  if (!answer.startsWith("ok ")) return createEveryInstructionWatcher(address);
  return {
    setupLine,
    maxRun: () => MAX_PIECE_CYCLES,
    queriesBefore: () => "",
    queriesAfter: "regs\n",
    readAnswers: (answers) => {
      const run = answers.takeRun();
      const { counter, isSecondCyclePending } = parseCounter(answers.take());
      return !isSecondCyclePending && counter === address ? { cycles: run.cycles, isReached: true, end: "" } : { ...run, isReached: false };
    },
    endsAtReturn: false,
  };
}

/**
 * Returns a watcher that compares the address of each instruction with the goal address. It skips the instruction at which the move starts.
 * @param {number} address
 */
function createEveryInstructionWatcher(address) {
  let isFirst = true;
  return createTraceWatcher("", (instruction) => {
    const isStartInstruction = isFirst && instruction.cycles === 0;
    isFirst = false;
    return instruction.address === address && !isStartInstruction ? instruction.cycles : -1;
  });
}

/**
 * Returns whether the program is in a subroutine: true if a JMS precedes the newest return address.
 * @param {string} regs the answer to `regs`
 * @param {Uint8Array} codes the bytes of ROM
 */
function isInSubroutine(regs, codes) {
  return isCall(codes[addressOfCall(parseInt(readRegisters(regs).returns[0], 16))]);
}

/**
 * Returns the `end` of the search result for a goal that does not exist in the current state.
 * @param {Goal} goal
 */
export function endForMissingGoal(goal) {
  return goal.kind === "out" ? "outside" : "lacks";
}

/**
 * Returns the watcher of a goal.
 * @param {Engine} engine
 * @param {Uint8Array} file the session file; not changed
 * @param {Goal} goal
 * @param {() => Uint8Array} [readCodes] returns the contents of ROM
 * @returns {Watcher | null} null if the goal does not exist in the current state
 */
export function createWatcher(engine, file, goal, readCodes = () => readRomCodes(engine, file)) {
  if (goal.kind === "here") return createAddressWatcher(engine, file, goal.address);
  if (goal.kind === "change") {
    const place = parsePlace(goal.place);
    const probes = place ? place.probesOn(readBoard(engine.ask(file, "board\n").answers)) : [];
    return probes.length > 0 ? createTraceWatcher(` ${probes.join(" ")}`, ({ cycles }) => cycles + 1) : null;
  }
  if (goal.kind === "when") return goal.searchCondition ? createConditionWatcher(goal.searchCondition) : null;
  const [regs] = engine.ask(file, "regs\n").answers;
  const { counter, isSecondCyclePending } = parseCounter(regs);
  if (goal.kind === "count") return createInstructionCountWatcher(goal.count, isSecondCyclePending);
  if (goal.kind === "out") return isInSubroutine(regs, readCodes()) ? createReturnWatcher(readCodes(), -1) : null;
  if (isSecondCyclePending || !isCall(readCodes()[counter])) return createInstructionCountWatcher(1, isSecondCyclePending);
  return createReturnWatcher(readCodes(), 0);
}
