// Finds the routines of a program. For each routine, finds the lines that it can reach, the routines that it calls with JMS, and its
// callers. A routine starts at the first statement of the program, or at the label that is the target of a JMS. A path through a routine
// ends at BBL, at data, at ORG, and at JIN (its target is known only at run time).

import { findDefinedNames, splitStatement } from "./assembly.js";

/**
 * A routine. `name` is its label; "" for none. `from` and `to` are the columns of the label. `line` and `last` are its first and last line,
 * counted from 0. The routine reaches all statements between these lines.
 * @typedef {{ name: string, line: number, from: number, to: number, last: number }} Routine
 *
 * A statement: its first word in upper case (`head`), and the line of the label in its last operand (`target`, -1 for none).
 * @typedef {{ head: string, target: number }} Statement
 *
 * The position of a call: its line, and the columns of the target in this line.
 * @typedef {{ line: number, from: number, to: number }} CallPosition
 */

/** The statements after which a path does not continue with the next statement. */
const PATH_ENDS = new Set(["BBL", "JIN", "JUN", "DB", "ORG"]);
/** The instructions after which a path can continue at their target. */
const JUMPS = new Set(["JUN", "JCN", "ISZ"]);

/** The routines of a program. */
export class Routines {
  /** @param {string[]} lines */
  constructor(lines) {
    this.parts = lines.map(splitStatement);
    this.names = findDefinedNames(lines);
    this.statements = this.parts.map((parts) => this.parseStatement(parts));
    /** @type {Map<number, Set<number>>} the lines that each routine reaches, by the first line of the routine */
    this.linesByRoutine = new Map();
    this.routines = this.findRoutines();
  }

  /**
   * Returns the statement in a line; null if the line has none.
   * @param {import("./assembly.js").Parts} parts the parts of the line
   * @returns {Statement | null}
   */
  parseStatement({ head, operands }) {
    if (!head) return null;
    const last = operands[operands.length - 1];
    const line = last ? this.names.get(last.text) : undefined;
    return { head: head.text.toUpperCase(), target: line === undefined || this.parts[line - 1].defines ? -1 : line - 1 };
  }

  /** @returns {Routine[]} the routines, in line order */
  findRoutines() {
    const first = this.statements.findIndex((statement) => statement !== null && statement.head !== "ORG");
    const callTargets = this.statements.map((statement) => (statement && statement.head === "JMS" ? statement.target : -1));
    const startLines = new Set([first, ...callTargets].filter((line) => line >= 0));
    return [...startLines].sort((one, other) => one - other).map((line) => {
      const { label, head } = this.parts[line];
      const { from, to } = label || head || { from: 0, to: 0 };
      return { name: label ? label.text : "", line, from, to, last: this.findLastLine(line) };
    });
  }

  /**
   * Returns the line of the first statement in or after a line; -1 if there is none.
   * @param {number} line
   */
  findStatement(line) {
    for (let laterLine = line; laterLine < this.statements.length; laterLine++) if (this.statements[laterLine]) return laterLine;
    return -1;
  }

  /**
   * Returns the lines of the statements of a routine that can be executed directly after a statement; -1 stands for the end of the text.
   * @param {number} line the line of the statement
   */
  findSuccessors(line) {
    const { head, target } = /** @type {Statement} */ (this.statements[line]);
    const successors = PATH_ENDS.has(head) ? [] : [this.findStatement(line + 1)];
    return JUMPS.has(head) && target >= 0 ? [...successors, this.findStatement(target)] : successors;
  }

  /**
   * Returns the lines of the statements that a routine reaches.
   * @param {number} firstLine the first line of the routine
   * @returns {Set<number>}
   */
  findReachedLines(firstLine) {
    const knownLines = this.linesByRoutine.get(firstLine);
    if (knownLines) return knownLines;
    const lines = new Set();
    const queue = [this.findStatement(firstLine)];
    while (queue.length > 0) {
      const line = /** @type {number} */ (queue.pop());
      if (line < 0 || lines.has(line)) continue;
      lines.add(line);
      queue.push(...this.findSuccessors(line));
    }
    this.linesByRoutine.set(firstLine, lines);
    return lines;
  }

  /**
   * Returns the last line of a routine. The routine reaches all statements up to this line.
   * @param {number} firstLine the first line of the routine
   */
  findLastLine(firstLine) {
    const reachedLines = this.findReachedLines(firstLine);
    let last = firstLine;
    for (let line = this.findStatement(firstLine); line >= 0 && reachedLines.has(line); line = this.findStatement(line + 1)) last = line;
    return last;
  }

  /**
   * Returns the routine that starts at a line; otherwise a routine that reaches the line. Returns null if no routine reaches the line.
   * @param {number} line
   */
  routineAt(line) {
    const first = this.routines.find((routine) => routine.line === line);
    const reachingRoutines = this.routines.filter((routine) => this.findReachedLines(routine.line).has(line));
    // If several routines reach the line, the nearest routine that starts above the line has priority.
    return first || reachingRoutines.filter((routine) => routine.line <= line).pop() || reachingRoutines[0] || null;
  }

  /**
   * Returns the routine that starts at a label, even if nothing calls it; null if there is no such label.
   * @param {string} name
   * @returns {Routine | null}
   */
  getByName(name) {
    const line = (this.names.get(name) || 0) - 1;
    const { label, defines } = this.parts[line] || { label: null, defines: true };
    if (!label || defines) return null;
    const { from, to } = label;
    return this.routines.find((routine) => routine.line === line) || { name, line, from, to, last: this.findLastLine(line) };
  }

  /**
   * Returns the calls in some lines, in line order.
   * @param {Iterable<number>} lines the line numbers from 0
   */
  findCallsInLines(lines) {
    return [...lines].filter((line) => this.isCall(line)).sort((one, other) => one - other).map((line) => {
      const { operands, head } = this.parts[line];
      const { from, to } = operands[operands.length - 1] || head || { from: 0, to: 0 };
      return { line, from, to, target: /** @type {Statement} */ (this.statements[line]).target };
    });
  }

  /**
   * Returns whether the statement in a line is a JMS to a label.
   * @param {number} line
   */
  isCall(line) {
    const statement = this.statements[line];
    return Boolean(statement && statement.head === "JMS" && statement.target >= 0);
  }

  /**
   * Returns the routines that a routine calls, with the positions of the calls.
   * @param {Routine} routine
   * @returns {{ routine: Routine, places: CallPosition[] }[]}
   */
  findCalledRoutines(routine) {
    const calls = this.findCallsInLines(this.findReachedLines(routine.line));
    const callsByRoutine = this.routines.map((callee) => (
      { routine: callee, places: calls.filter(({ target }) => target === callee.line) }));
    return callsByRoutine.filter(({ places }) => places.length > 0);
  }

  /**
   * Returns the routines that contain a call: the routines that reach the line of the call. If no routine reaches the line, returns the
   * routine at the nearest label in or above the line.
   * @param {number} line the line of the call
   * @returns {Routine[]}
   */
  findRoutinesContaining(line) {
    const reachingRoutines = this.routines.filter((candidate) => this.findReachedLines(candidate.line).has(line));
    if (reachingRoutines.length > 0) return reachingRoutines;
    const nearestLabel = [...this.names].filter(([, labelLine]) => labelLine - 1 <= line && !this.parts[labelLine - 1].defines).pop();
    const routine = nearestLabel ? this.getByName(nearestLabel[0]) : null;
    return routine ? [routine] : [];
  }

  /**
   * Returns the routines that call a routine, with the positions of the calls.
   * @param {Routine} routine
   * @returns {{ routine: Routine, places: CallPosition[] }[]}
   */
  findCallers({ line: callee }) {
    /** @type {Map<number, { routine: Routine, places: CallPosition[] }>} */
    const callersByLine = new Map();
    for (const call of this.findCallsInLines(this.statements.keys())) {
      if (call.target !== callee) continue;
      for (const routine of this.findRoutinesContaining(call.line)) {
        const callers = callersByLine.get(routine.line) || { routine, places: [] };
        callers.places.push(call);
        callersByLine.set(routine.line, callers);
      }
    }
    return [...callersByLine.values()].sort((one, other) => one.routine.line - other.routine.line);
  }

  /**
   * Counts the uses of each label: the calls, and the other uses.
   * @returns {Map<string, { calls: number, otherUses: number }>}
   */
  countUses() {
    const labels = [...this.names].filter(([, line]) => !this.parts[line - 1].defines);
    const uses = new Map(labels.map(([name]) => [name, { calls: 0, otherUses: 0 }]));
    this.parts.forEach(({ operands }, line) => {
      for (const { text } of operands) {
        const use = uses.get(text);
        if (use && this.isCall(line)) use.calls += 1;
        else if (use) use.otherUses += 1;
      }
    });
    return uses;
  }
}
