// Finds the routines of a program and the calls between routines. Creates the code lenses above labels, which show the number of calls.

import { Routines } from "../text/routines.js";
import { rangeInLine } from "./lsp_protocol.js";
import * as say from "../../words/server.js";

/**
 * @typedef {import("../machine/source_map.js").SourceMap} SourceMap
 * @typedef {import("../text/routines.js").CallPosition} CallPosition
 * @typedef {import("./language.js").Call} Call
 * @typedef {import("./language.js").Lens} Lens
 * @typedef {import("./language.js").Routine} Routine
 * @typedef {import("./lsp_protocol.js").Range} Range
 */

/** @type {(place: CallPosition) => Range} returns the range of a call in the text */
const callRange = ({ line, from, to }) => rangeInLine(line + 1, from, to);

export class ProgramCalls {
  /**
   * @param {string[]} lines
   * @param {SourceMap | null} map null if the program has errors
   */
  constructor(lines, map) {
    this.lines = lines;
    this.map = map;
    this.routines = new Routines(lines);
  }

  /**
   * Returns a routine in the protocol's format.
   * @param {import("../text/routines.js").Routine} routine
   * @returns {Routine}
   */
  toRoutine({ name, line, from, to, last }) {
    const selectionRange = rangeInLine(line + 1, from, to);
    const range = { start: { line, character: 0 }, end: { line: last, character: this.lines[last].length } };
    return { name: name || say.PROGRAM_START, detail: name && this.map ? this.map.meaningOf(name) : "", range, selectionRange };
  }

  /**
   * Returns calls in the protocol's format.
   * @param {{ routine: import("../text/routines.js").Routine, places: CallPosition[] }[]} calls
   * @returns {Call[]}
   */
  toCalls(calls) {
    return calls.map(({ routine, places }) => ({ routine: this.toRoutine(routine), ranges: places.map(callRange) }));
  }

  /**
   * Returns the routine with a name, or else the routine that contains a line; null if neither exists.
   * @param {string} name the name, "" for none
   * @param {number} line the line number from 0
   */
  findRoutine(name, line) {
    return this.routines.getByName(name) || this.routines.routineAt(line);
  }

  /**
   * Returns the routine with a name or at a line, in the protocol's format; null if there is none.
   * @param {string} name the name, "" for none
   * @param {number} line the line number from 0
   */
  routine(name, line) {
    const foundRoutine = this.findRoutine(name, line);
    return foundRoutine && this.toRoutine(foundRoutine);
  }

  /**
   * Returns the routines that call a routine.
   * @param {string} name the name, "" for none
   * @param {number} line the line number from 0
   */
  callers(name, line) {
    const routine = this.findRoutine(name, line);
    return routine ? this.toCalls(this.routines.findCallers(routine)) : [];
  }

  /**
   * Returns the routines that a routine calls.
   * @param {string} name the name, "" for none
   * @param {number} line the line number from 0
   */
  callees(name, line) {
    const routine = this.findRoutine(name, line);
    return routine ? this.toCalls(this.routines.findCalledRoutines(routine)) : [];
  }

  /**
   * Returns a code lens for each label, with the numbers of calls and other uses.
   * @param {(name: string) => Range[]} findUses returns the ranges of a name, except its definition
   * @returns {Lens[]}
   */
  lenses(findUses) {
    return [...this.routines.countUses()].map(([name, { calls, otherUses }]) => {
      const line = /** @type {number} */ (this.routines.names.get(name));
      const { label } = this.routines.parts[line - 1];
      const { from, to } = label || { from: 0, to: 0 };
      return { range: rangeInLine(line, from, to), title: say.describeUses(calls, otherUses), references: findUses(name), test: null };
    });
  }
}
