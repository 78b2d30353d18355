// Collects the changes that the last executed source lines made to the machine state. At each pause, adds the changes that the last step
// made. A step is one instruction, or a call that the user stepped over.
//
//     const changes = new LineChanges();
//     changes.recordPause(machineState, cycles, map);   at a pause; `cycles` is the total cycle count of the session
//     changes.lines                              Map { 12 => "acc 5 cy 1" }, newest line last

import { splitStatement } from "../text/assembly.js";
import * as say from "../../words/debug.js";

/**
 * @typedef {import("../machine/source_map.js").SourceMap} SourceMap
 * @typedef {import("./machine_state.js").MachineState} MachineState
 */

/** The maximum number of reported lines, and of reported changes per line. */
const MAX_LINES = 8;
const MAX_CHANGES = 6;

/**
 * Describes the values that changed between two pauses: their names and new values. Lists at most MAX_CHANGES values, and then says how
 * many values are left out.
 * @param {MachineState} before
 * @param {MachineState} after
 */
export function describeChanges(before, after) {
  const oldValues = before.allValues();
  const changedValues = [...after.allValues()].filter(([name, value]) => oldValues.get(name) !== value);
  const descriptions = changedValues.map(([name, value]) => `${name} ${value}`);
  const omittedCount = descriptions.length - MAX_CHANGES;
  return descriptions.slice(0, MAX_CHANGES).join(" ") + (omittedCount > 0 ? say.moreItems(omittedCount) : "");
}

/**
 * Returns the number of the source line whose instruction was the only step between two pauses; 0 if there is no such line. A call and its
 * subroutine are one step.
 * @param {MachineState} before
 * @param {MachineState} after
 * @param {number} cycles the cycles between the pauses
 * @param {SourceMap} map
 */
function findSteppedLine({ registers: before }, { registers: after }, cycles, map) {
  const address = parseInt(before.counter, 16);
  if (!map.beginsInstruction(address) || before.owed !== "0" || after.owed !== "0") return 0;
  const line = map.lineOf(address);
  const { head } = splitStatement(map.sourceLines[line - 1]);
  const name = head ? head.text.toUpperCase() : "";
  const size = map.sizes[line];
  if (cycles === (name === "FIN" ? 2 : size)) return line;
  // Only the newest return address is compared, because nested calls can have overwritten older entries of the call stack.
  const hasReturned = parseInt(after.counter, 16) === address + size && before.returns[0] === after.returns[0];
  return name === "JMS" && hasReturned ? line : 0;
}

/** The changes that the last executed source lines made to the machine state. */
export class LineChanges {
  constructor() {
    /** @type {MachineState | null} the state at the last pause; null before the first pause */
    this.lastState = null;
    /** The cycle count at the last pause. */
    this.lastCycles = 0;
    /** @type {Map<number, string>} the descriptions of changes, by line number */
    this.lines = new Map();
  }

  /** Forgets the last pause and all changes. */
  forget() {
    this.lastState = null;
    this.lines = new Map();
  }

  /**
   * If the machine has made one step since the last pause, adds the changes that the step made. If the machine has run in another way,
   * removes all changes.
   * @param {MachineState} machineState the state at the pause
   * @param {number} cycles the total cycle count of the session at the pause
   * @param {SourceMap | null} map the source map of the program in ROM; null if the source is unknown
   */
  recordPause(machineState, cycles, map) {
    const { lastState } = this;
    const elapsedCycles = cycles - this.lastCycles;
    this.lastState = machineState;
    this.lastCycles = cycles;
    if (lastState && map && elapsedCycles === 0) return;
    const line = lastState && map && elapsedCycles > 0 ? findSteppedLine(lastState, machineState, elapsedCycles, map) : 0;
    if (!lastState || line === 0) {
      this.lines = new Map();
      return;
    }
    const lines = [...this.lines].filter(([reportedLine]) => reportedLine !== line);
    this.lines = new Map([...lines, /** @type {[number, string]} */ ([line, describeChanges(lastState, machineState)])].slice(-MAX_LINES));
  }
}
