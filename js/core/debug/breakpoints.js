// Defines the list of breakpoints. A breakpoint belongs to a source line and moves with that line. If the source is the program in ROM,
// each breakpoint also has an address. A breakpoint outside the source has only an address.

import * as say from "../../words/debug.js";

/**
 * @typedef {import("../machine/source_map.js").SourceMap} SourceMap
 * @typedef {import("./soft_breakpoints.js").LocatedBreakpoint} LocatedBreakpoint
 *
 * A breakpoint. `line` counts from 1; it is 0 if the breakpoint has no line. `address` is the last known address, -1 for none.
 * `isOn` is true if the breakpoint is enabled. The other fields are those of `LocatedBreakpoint`.
 * @typedef {{ id: number, line: number, address: number, isOn: boolean, condition: string, from: number, note: string, hits: number }}
 *   Breakpoint
 * @typedef {Omit<Breakpoint, "id" | "hits">} SavedBreakpoint a breakpoint as saved in a session or project
 *
 * An edit that replaces the text from position `from` to position `to`. `line` and `ch` (the column) count from 0. `text` contains the new
 * lines, and `removed` the old lines. `origin` is "undo" or "redo" for these commands. `replacesAll` is true if the edit replaces the whole
 * text.
 * @typedef {{ from: { line: number, ch: number }, to: { line: number, ch: number }, text: string[], removed?: string[],
 *   origin?: string, replacesAll?: boolean }} Edit
 */

/** The maximum number of enabled breakpoints, a limit of the bench. */
export const MAX_ENABLED_BREAKPOINTS = 32;
/** The maximum number of breakpoints in a list. */
export const MAX_BREAKPOINTS = 256;
/** The maximum number of deleted breakpoints that the list stores. Undo restores a stored breakpoint together with its line. */
const MAX_DELETED_BREAKPOINTS = 256;
/** The maximum number of earlier source texts whose breakpoints the list stores. */
const MAX_TEXTS = 30;

/** @type {Omit<Breakpoint, "id" | "line" | "address">} the default fields of a breakpoint */
const DEFAULT_FIELDS = { isOn: true, condition: "", from: 1, note: "", hits: 0 };

/** The breakpoints of a source text and of ROM. */
export class BreakpointList {
  /** @param {Partial<SavedBreakpoint>[]} [savedBreakpoints] */
  constructor(savedBreakpoints = []) {
    this.lastId = 0;
    /** @type {Breakpoint[]} sorted by line; breakpoints without a line are last */
    this.all = savedBreakpoints.map((savedBreakpoint) => this.createBreakpoint(savedBreakpoint));
    /**
     * @type {{ text: string, breakpoint: Breakpoint }[]} the breakpoints that were deleted because their source lines were deleted, each
     *   with the text of its line, newest last
     */
    this.deletedBreakpoints = [];
    /** @type {Map<string, Breakpoint[]>} the breakpoints of replaced source texts, by source text, newest last */
    this.breakpointsByText = new Map();
    this.sort();
  }

  /**
   * Returns a breakpoint with a new id.
   * @param {Partial<SavedBreakpoint>} fields
   * @returns {Breakpoint}
   */
  createBreakpoint(fields) {
    this.lastId += 1;
    return { ...DEFAULT_FIELDS, line: 0, address: -1, ...fields, hits: 0, id: this.lastId };
  }

  sort() {
    /** @type {(breakpoint: Breakpoint) => number} */
    const rank = ({ line, address }) => (line > 0 ? line : 1e6 + address);
    this.all.sort((a, b) => rank(a) - rank(b));
  }

  /**
   * Adds a breakpoint and returns it.
   * @param {Partial<SavedBreakpoint>} fields
   */
  add(fields) {
    const breakpoint = this.createBreakpoint(fields);
    this.all.push(breakpoint);
    this.sort();
    return breakpoint;
  }

  /** @param {number} id */
  remove(id) {
    this.all = this.all.filter((breakpoint) => breakpoint.id !== id);
  }

  /**
   * Changes some fields of a breakpoint.
   * @param {number} id
   * @param {Partial<SavedBreakpoint>} changes the changed fields
   */
  change(id, changes) {
    this.all = this.all.map((breakpoint) => (breakpoint.id === id ? { ...breakpoint, ...changes } : breakpoint));
  }

  /**
   * @param {number} id
   * @returns {Breakpoint | undefined}
   */
  get(id) {
    return this.all.find((breakpoint) => breakpoint.id === id);
  }

  /**
   * @param {number} line
   * @returns {Breakpoint | undefined}
   */
  findByLine(line) {
    return this.all.find((breakpoint) => breakpoint.line === line);
  }

  /**
   * @param {number} address
   * @returns {Breakpoint | undefined}
   */
  findByAddress(address) {
    return this.all.find((breakpoint) => breakpoint.address === address);
  }

  /** The number of enabled breakpoints. */
  get enabledCount() {
    return this.all.filter(({ isOn }) => isOn).length;
  }

  /**
   * Updates the breakpoints after an edit of the text. Returns false only if no breakpoint has changed.
   * @param {Edit} edit
   */
  applyEdit(edit) {
    return (edit.replacesAll === true && this.replaceText(edit)) || this.moveWithLines(edit);
  }

  /**
   * Handles an edit that replaces the whole text. Stores the breakpoints of the old text. If the new text was in the editor before,
   * restores the breakpoints of the new text and returns true. Otherwise returns false.
   * @param {Edit} edit
   */
  replaceText({ removed = [], text }) {
    this.storeForText(removed.join("\n"));
    const storedBreakpoints = this.breakpointsByText.get(text.join("\n"));
    if (!storedBreakpoints) return false;
    const ids = new Set(storedBreakpoints.map(({ id }) => id));
    // Keeps any changes made to a breakpoint since it was stored, except to its line and address. A breakpoint without a line belongs to
    // ROM, not to the text. If such a breakpoint was deleted, it is not restored.
    const restoredBreakpoints = storedBreakpoints.filter(({ id, line }) => line > 0 || this.get(id))
      .map((breakpoint) => ({ ...(this.get(breakpoint.id) || breakpoint), line: breakpoint.line, address: breakpoint.address }));
    const romBreakpoints = this.all.filter(({ id, line, address }) => (
      !ids.has(id) && line === 0 && !restoredBreakpoints.some((breakpoint) => breakpoint.address === address)));
    this.all = [...restoredBreakpoints, ...romBreakpoints];
    this.deletedBreakpoints = this.deletedBreakpoints.filter(({ breakpoint }) => !ids.has(breakpoint.id));
    this.sort();
    this.enforceLimits();
    return true;
  }

  /**
   * Stores the current breakpoints as the breakpoints of a source text.
   * @param {string} text
   */
  storeForText(text) {
    this.breakpointsByText.delete(text);
    this.breakpointsByText.set(text, [...this.all]);
    for (const oldest of [...this.breakpointsByText.keys()].slice(0, -MAX_TEXTS)) this.breakpointsByText.delete(oldest);
  }

  /** Removes breakpoints above the maximum number, and disables breakpoints above the maximum number of enabled breakpoints. */
  enforceLimits() {
    let count = 0;
    this.all = this.all.slice(0, MAX_BREAKPOINTS).map((breakpoint) => {
      count += breakpoint.isOn ? 1 : 0;
      return breakpoint.isOn && count > MAX_ENABLED_BREAKPOINTS ? { ...breakpoint, isOn: false } : breakpoint;
    });
  }

  /**
   * Moves breakpoints with their lines, and deletes breakpoints whose lines are deleted. Returns false only if no breakpoint has changed.
   * @param {Edit} edit
   */
  moveWithLines(edit) {
    const { first, last, count, isUnrelated } = findReplacedLines(edit);
    if (isUnrelated) return this.detachFromLines();
    const shift = count - (last - first + 1);
    if (shift === 0) return false;
    const isMoved = this.all.some(({ line }) => line >= first);
    this.all = this.all.flatMap((breakpoint) => {
      if (breakpoint.line < first) return [breakpoint];
      if (breakpoint.line > last) return [{ ...breakpoint, line: breakpoint.line + shift }];
      // A breakpoint on a replaced line keeps its line number if the new text has enough lines.
      if (breakpoint.line < first + count) return [breakpoint];
      this.storeDeleted(breakpoint, edit);
      return [];
    });
    const isUndoOrRedo = edit.origin === "undo" || edit.origin === "redo";
    return (isUndoOrRedo && this.restoreDeleted(edit, first, count)) || isMoved;
  }

  /**
   * Clears the line of each breakpoint that has an address, after an unrelated text has replaced the whole text. Returns whether there are
   * any breakpoints.
   */
  detachFromLines() {
    this.all = this.all.map((breakpoint) => (breakpoint.address >= 0 ? { ...breakpoint, line: 0 } : breakpoint));
    this.sort();
    return this.all.length > 0;
  }

  /**
   * Stores a breakpoint that is deleted with its line, so that undo can restore it.
   * @param {Breakpoint} breakpoint
   * @param {Edit} edit
   */
  storeDeleted(breakpoint, { from, removed = [] }) {
    this.deletedBreakpoints.push({ text: removed[breakpoint.line - from.line - 1] || "", breakpoint });
    if (this.deletedBreakpoints.length > MAX_DELETED_BREAKPOINTS) this.deletedBreakpoints.shift();
  }

  /**
   * Restores the breakpoints on lines that an undo or redo brings back. Returns whether any breakpoint was restored.
   * @param {Edit} edit
   * @param {number} first the first restored line, from 1
   * @param {number} count the number of restored lines
   */
  restoreDeleted({ from, text }, first, count) {
    const countBefore = this.all.length;
    for (let line = first + count - 1; line >= first; line--) {
      const deletedIndex = this.deletedBreakpoints.map((deleted) => deleted.text).lastIndexOf(text[line - from.line - 1]);
      if (deletedIndex < 0 || this.findByLine(line)) continue;
      const [{ breakpoint }] = this.deletedBreakpoints.splice(deletedIndex, 1);
      this.all.push({ ...breakpoint, line });
    }
    this.sort();
    this.enforceLimits();
    return this.all.length > countBefore;
  }

  /**
   * Moves each breakpoint to an instruction of the program, and sets its address. Removes all but one of the breakpoints with the same
   * address. Called after the source has been assembled into ROM. Returns messages about breakpoints that moved, and about breakpoints
   * after the last instruction.
   * @param {SourceMap} map
   */
  locate(map) {
    /** @type {string[]} */
    const messages = [];
    /** @type {Map<number, Breakpoint>} */
    const byAddress = new Map();
    for (const breakpoint of this.all) {
      const instruction = breakpoint.line > 0 ? instructionForLine(breakpoint.line, map) : instructionAtAddress(breakpoint.address, map);
      if (instruction.message) messages.push(instruction.message);
      const { line, address } = instruction;
      // Two breakpoints at the same address become one.
      if (address >= 0 && byAddress.has(address)) continue;
      byAddress.set(address >= 0 ? address : -1 - breakpoint.id, { ...breakpoint, line, address });
    }
    this.all = [...byAddress.values()];
    this.sort();
    return messages;
  }

  /**
   * The breakpoints that are enabled and have an address.
   * @returns {LocatedBreakpoint[]}
   */
  get locatedBreakpoints() {
    return this.all.filter(({ isOn, address }) => isOn && address >= 0);
  }

  /**
   * Adds hits to the hit counts.
   * @param {[number, number][]} hits pairs of a breakpoint id and its number of new hits
   */
  countHits(hits) {
    for (const [id, newHits] of hits) {
      const breakpoint = this.get(id);
      if (breakpoint) breakpoint.hits += newHits;
    }
  }

  /** Resets the hit counts. */
  resetHits() {
    this.all = this.all.map((breakpoint) => ({ ...breakpoint, hits: 0 }));
  }

  /** @returns {SavedBreakpoint[]} */
  get savedBreakpoints() {
    return this.all.map(({ line, address, isOn, condition, from, note }) => ({ line, address, isOn, condition, from, note }));
  }
}

/**
 * Returns the number of equal lines at the start, or at the end, of two lists of lines.
 * @param {string[]} oldLines
 * @param {string[]} newLines
 * @param {number} max the maximum result
 * @param {boolean} isAtEnd true to count the lines at the end
 */
function countEqualLines(oldLines, newLines, max, isAtEnd) {
  let count = 0;
  /** @type {(lines: string[]) => string} */
  const nextLine = (lines) => lines[isAtEnd ? lines.length - 1 - count : count];
  while (count < max && nextLine(oldLines) === nextLine(newLines)) count += 1;
  return count;
}

/**
 * Returns the first and the last line that an edit replaces, counted from 1, and the number of new lines. Lines that stay equal at the
 * start and the end are excluded. Text that is inserted at the start of a line counts as new lines before this line. `isUnrelated` is true
 * if the edit replaces the whole text with an unrelated text. Texts are unrelated if both have more than two lines, and share no nonblank
 * line at the start or at the end.
 * @param {Edit} edit
 */
function findReplacedLines({ from, to, text, removed = Array(to.line - from.line + 1).fill("\n"), replacesAll = false }) {
  const maxCount = Math.min(removed.length, text.length);
  const isAtLineStart = from.ch === 0;
  const preferredCount = countEqualLines(removed, text, maxCount, isAtLineStart);
  const otherCount = countEqualLines(removed, text, maxCount - preferredCount, !isAtLineStart);
  const [before, after] = isAtLineStart ? [otherCount, preferredCount] : [preferredCount, otherCount];
  const unchangedLines = [...text.slice(0, before), ...text.slice(text.length - after)];
  const isUnrelated = replacesAll && unchangedLines.join("").trim() === "" && removed.length > 2 && text.length > 2;
  return { first: from.line + 1 + before, last: to.line + 1 - after, count: text.length - before - after, isUnrelated };
}

/**
 * Returns the line and the address of the instruction on a line. If the line has no instruction, returns the line and the address of the
 * next instruction, with a `message`. If no instruction follows, returns the line and the address -1, with a `message`.
 * @param {number} line
 * @param {SourceMap} map
 */
export function instructionForLine(line, map) {
  const lineAddress = map.addressOf(line);
  if (lineAddress !== undefined) return { line, address: lineAddress, message: "" };
  for (let next = line + 1; next <= map.lineCount; next++) {
    const address = map.addressOf(next);
    if (address !== undefined) {
      const message = say.breakpointMovedToLine(line, next);
      return { line: next, address, message };
    }
  }
  return { line, address: -1, message: say.nothingFollowsMessage(line) };
}

/**
 * Returns the line and the address of the instruction at an address; the line is 0 if the address is not in the source. If the address is
 * the second byte of an instruction, returns the next instruction instead, with a `message`. If no instruction follows, returns the
 * instruction that contains the address, with a `message`.
 * @param {number} address
 * @param {SourceMap} map
 */
export function instructionAtAddress(address, map) {
  if (address < 0 || !map.isInsideInstruction(address)) return { line: address < 0 ? 0 : map.lineOf(address), address, message: "" };
  const line = map.lineOf(address);
  const digits = address.toString(16).toUpperCase().padStart(3, "0");
  const nextInstruction = instructionForLine(line + 1, map);
  if (nextInstruction.address < 0) return { line, address: map.addresses[line], message: say.insideInstruction(digits, line) };
  return { ...nextInstruction, message: say.insideAndMoved(digits, line, nextInstruction.line) };
}
