// While the machine runs, measures how long each lamp is on, and how long each digit of a display shows each pattern of segments. For this,
// a `trace` query before each run forecasts the lamps during the run.

import { digitPatterns, UNLIT_PATTERN, isLit } from "../board/digit_patterns.js";
import { fittingGroups, isMultiplexed } from "../board/face_board.js";
import { ForecastAnswers, parseTraceLine } from "./forecast_answers.js";

/**
 * @typedef {import("../board/face.js").Face} Face
 * @typedef {import("../board/face.js").Group} Group
 *
 * The times between changes within an interval, in cycles: before the first change (`first`), the longest time between two changes
 * (`longest`), and after the last change (`afterLast`). Null if nothing changed.
 * @typedef {{ first: number, longest: number, afterLast: number } | null} ChangeSummary
 *
 * The contents of a display during an interval. `patterns`: the segment pattern of each digit at the end. `changeSummary`: the times
 * between pattern changes. If a pattern changed, `patternTimes` lists the patterns of each digit with their durations in cycles. It leaves
 * out the unlit pattern.
 * @typedef {{ patterns: number[], changeSummary: ChangeSummary, patternTimes: [number, number][][] }} ShownDisplay
 *
 * The lamp measurements of an interval of `cycles` cycles. `face`: the number that the page gave to the front panel. `marks`: one character
 * per lamp at the end, `*` for on. `lamps`: the number of cycles for which each lamp was on. `changeSummaries`: the times between changes
 * of each lamp. `scanned`: for each multiplexed group except displays, the number of cycles for which each of its lamps was on, row by row.
 * @typedef {{ face: number, cycles: number, marks: string, lamps: number[], changeSummaries: ChangeSummary[], displays: ShownDisplay[],
 *   scanned: number[][] }} LitShares
 */

/**
 * The maximum number of cycles for which planned lines are measured. A batch at full speed is longer; `forecastMeters` then forecasts the
 * next 30 ms instead.
 */
export const MAX_MEASURED_CYCLES = 20000;

/**
 * Returns whether any of `count` consecutive lamps has changed between on and off.
 * @param {string} marks the lamp marks (`*` for a lamp that is on)
 * @param {string} marksBefore the lamp marks before the change
 * @param {number} first the number of the first lamp
 * @param {number} count
 */
function lampsDiffer(marks, marksBefore, first, count) {
  for (let lamp = first; lamp < first + count; lamp++) if (marks.charCodeAt(lamp) !== marksBefore.charCodeAt(lamp)) return true;
  return false;
}

/** Records the times of changes within an interval. */
class ChangeTimes {
  constructor() {
    this.firstChange = -1;
    this.lastChange = 0;
    this.longestGap = 0;
  }

  /** @param {number} cycles the time of the change, in cycles since the start of the interval */
  add(cycles) {
    if (this.firstChange < 0) this.firstChange = cycles;
    else this.longestGap = Math.max(this.longestGap, cycles - this.lastChange);
    this.lastChange = cycles;
  }

  /**
   * Returns the times between the changes in the current interval, null if nothing changed, and starts a new interval.
   * @param {number} cycles the length of the interval
   * @returns {ChangeSummary}
   */
  take(cycles) {
    if (this.firstChange < 0) return null;
    const summary = { first: this.firstChange, longest: this.longestGap, afterLast: cycles - this.lastChange };
    this.firstChange = -1;
    this.longestGap = 0;
    return summary;
  }
}

/** Measures how long each digit of a display shows each segment pattern. */
class PatternTimes {
  /** @param {Group} group a display */
  constructor(group) {
    this.group = group;
    this.changeTimes = new ChangeTimes();
    /** @type {number[]} the current pattern of each digit; `patternStart` is the time in cycles at which these patterns started */
    this.patterns = [];
    this.patternStart = 0;
    /** @type {Map<number, number>[]} one map per digit, with the number of cycles for which the digit showed each pattern */
    this.patternCycles = Array.from({ length: group.rows }, () => new Map());
  }

  /** @param {string} marks the lamp marks at the start */
  begin(marks) {
    this.patterns = digitPatterns(this.group, marks);
  }

  /**
   * Records a change in the lamps' states if the change affects this display.
   * @param {string} marks the lamp marks (`*` for a lamp that is on)
   * @param {string} marksBefore the lamp marks before the change
   * @param {number} cycles the time of the change, in cycles since the start of the interval
   */
  recordChange(marks, marksBefore, cycles) {
    const { first, rows, columns, firstRowLamp } = this.group;
    const hasChanged = firstRowLamp < 0 ? lampsDiffer(marks, marksBefore, first, rows * columns)
      : lampsDiffer(marks, marksBefore, first, columns) || lampsDiffer(marks, marksBefore, firstRowLamp, rows);
    if (!hasChanged) return;
    this.countTimeUntil(cycles);
    this.changeTimes.add(cycles);
    this.patterns = digitPatterns(this.group, marks);
  }

  /**
   * Adds the time up to `now` to the times of the current patterns.
   * @param {number} now the current time in cycles
   */
  countTimeUntil(now) {
    const cycles = now - this.patternStart;
    this.patternStart = now;
    if (cycles === 0) return;
    this.patterns.forEach((pattern, index) => {
      if (pattern !== UNLIT_PATTERN) this.patternCycles[index].set(pattern, (this.patternCycles[index].get(pattern) || 0) + cycles);
    });
  }

  /**
   * Returns the contents of the display, and starts a new interval.
   * @param {number} cycles the length of the interval
   * @returns {ShownDisplay}
   */
  take(cycles) {
    const { patterns } = this;
    const changeSummary = this.changeTimes.take(cycles);
    if (changeSummary) this.countTimeUntil(cycles);
    this.patternStart = 0;
    if (!changeSummary) return { patterns, changeSummary, patternTimes: [] };
    const patternTimes = this.patternCycles.map((times) => [...times]);
    for (const times of this.patternCycles) times.clear();
    return { patterns, changeSummary, patternTimes };
  }
}

/** Measures how long the lamps of a multiplexed group are on. */
class ScannedLampTimes {
  /** @param {Group} group */
  constructor(group) {
    this.group = group;
    this.lastCountTime = 0;
    this.litCycles = new Array(group.rows * group.columns).fill(0);
  }

  /**
   * Counts the time for which the lamps have been on.
   * @param {string} marks the lamp marks until now
   * @param {number} now the current time in cycles
   */
  countTimeUntil(marks, now) {
    const cycles = now - this.lastCountTime;
    this.lastCountTime = now;
    if (cycles === 0) return;
    const { first, rows, columns, firstRowLamp } = this.group;
    for (let row = 0; row < rows; row++) {
      if (!isLit(marks, firstRowLamp + row)) continue;
      for (let column = 0; column < columns; column++) if (isLit(marks, first + column)) this.litCycles[row * columns + column] += cycles;
    }
  }

  /**
   * Returns the cycles for which each lamp was on, and starts a new interval.
   * @param {string} marks the lamp marks at the end of the interval
   * @param {number} cycles the length of the interval
   */
  take(marks, cycles) {
    this.countTimeUntil(marks, cycles);
    const litCycles = this.litCycles.slice();
    this.litCycles.fill(0);
    this.lastCountTime = 0;
    return litCycles;
  }
}

export class BrightnessMeter {
  /**
   * @param {Face} face
   * @param {number} count the number of lamps on the board
   * @param {number} number the number that the page gave to the front panel
   */
  constructor(face, count, number) {
    this.number = number;
    const groups = fittingGroups(face, count);
    this.displays = groups.filter(({ kind }) => kind === "display").map((group) => new PatternTimes(group));
    this.scannedLamps = groups.filter((group) => isMultiplexed(group) && group.kind !== "display")
      .map((group) => new ScannedLampTimes(group));
    this.cycles = 0;
    /** The current lamp marks: one character per lamp, `*` for on; "" before the first report. */
    this.marks = "";
    /** @type {number[]} the number of cycles for which each lamp was on, counted up to `lastCountTime` */
    this.litCycles = new Array(count).fill(0);
    this.lastCountTime = new Array(count).fill(0);
    this.changeTimes = this.litCycles.map(() => new ChangeTimes());
  }

  // --- The queries before each run ---

  /** The number of queries before each run. */
  get count() {
    return 1;
  }

  /** False because the answers to `state` are not used. */
  get needsStates() {
    return false;
  }

  /**
   * Returns the query to send before a run: a `trace` of the lamps for the length of the run.
   * @param {number} cycles the length of the run
   */
  queries(cycles) {
    return `trace ${cycles} lamps\n`;
  }

  /**
   * Returns the lamp measurements since the previous call, computed from the answers to the queries before the runs.
   * @param {string[][]} answerLists one list of answers for each planned line; empty for a line that is not a run
   * @returns {LitShares}
   */
  take(answerLists) {
    for (const answers of answerLists) if (answers.length > 0) this.add(answers);
    const { number: faceNumber, cycles, marks, litCycles, lastCountTime, changeTimes } = this;
    for (let lamp = 0; lamp < litCycles.length; lamp++) {
      if (isLit(marks, lamp)) litCycles[lamp] += cycles - lastCountTime[lamp];
      lastCountTime[lamp] = 0;
    }
    const litShares = {
      face: faceNumber, cycles, marks, lamps: litCycles.slice(), changeSummaries: changeTimes.map((times) => times.take(cycles)),
      displays: this.displays.map((display) => display.take(cycles)),
      scanned: this.scannedLamps.map((group) => group.take(marks, cycles)),
    };
    litCycles.fill(0);
    this.cycles = 0;
    return litShares;
  }

  /** @param {string[]} answers the lines of the answer to one `trace` query */
  add(answers) {
    const { row, lines, cycles } = new ForecastAnswers(answers).takeTrace();
    const cyclesBefore = this.cycles;
    this.recordChange(row.slice(1), cyclesBefore);
    for (const line of lines) {
      const tracedInstruction = parseTraceLine(line);
      // An instruction takes effect after its first cycle.
      this.recordChange(tracedInstruction.row.slice(1), cyclesBefore + tracedInstruction.cycles + 1);
    }
    // An empty run counts as one cycle, so that the lamps that are on are counted for at least one cycle.
    this.cycles = cyclesBefore + Math.max(1, cycles);
  }

  /**
   * Records a change in the lamps' states.
   * @param {string} marks the new lamp marks
   * @param {number} cycles the time of the change, in cycles
   */
  recordChange(marks, cycles) {
    const { marks: marksBefore, litCycles, lastCountTime, changeTimes } = this;
    if (marks === marksBefore) return;
    this.marks = marks;
    if (marksBefore === "") {
      for (const display of this.displays) display.begin(marks);
      return;
    }
    for (let lamp = 0; lamp < litCycles.length; lamp++) {
      if (marks.charCodeAt(lamp) === marksBefore.charCodeAt(lamp)) continue;
      if (isLit(marksBefore, lamp)) litCycles[lamp] += cycles - lastCountTime[lamp];
      lastCountTime[lamp] = cycles;
      changeTimes[lamp].add(cycles);
    }
    for (const display of this.displays) display.recordChange(marks, marksBefore, cycles);
    for (const group of this.scannedLamps) group.countTimeUntil(marksBefore, cycles);
  }
}
