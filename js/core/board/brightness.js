// Computes the brightness of the lamps as an eye perceives it. A steady lamp is perceived as on or off at once. The brightness of a
// flickering lamp follows its duty cycle. Earlier light fades with the persistence of vision (`EYE_PERSISTENCE_MS`).

import { fittingGroups, isMultiplexed } from "./face_board.js";
import { UNLIT_PATTERN, isLit } from "./digit_patterns.js";
import { EYE_PERSISTENCE_MS } from "../time/mcs4_time.js";

/**
 * @typedef {import("./face.js").Face} Face
 * @typedef {import("../engine/brightness_meter.js").ChangeSummary} ChangeSummary
 * @typedef {import("../engine/brightness_meter.js").LitShares} LitShares
 * @typedef {import("../engine/brightness_meter.js").ShownDisplay} ShownDisplay
 */

/** The minimum duty cycle at which a flickering lamp counts as on. */
export const MIN_ON_DUTY = 0.5;
/** The minimum time without a change before a lamp or display can count as steady, in milliseconds. */
const MIN_REST_MS = 2;
/**
 * The gamma of the eye: the perceived brightness is the duty cycle to the power of 1 / GAMMA. The eye distinguishes dim lamps better than
 * bright lamps.
 */
const GAMMA = 2.2;
/** The minimum duty cycles of the brightness levels: dim, half, full. */
const LEVEL_THRESHOLDS = [0.01, 0.15, 0.6];
/** The highest brightness level. */
export const FULL_LEVEL = LEVEL_THRESHOLDS.length;
/** The smallest duty cycle or pattern share that is stored. Smaller values become 0. */
const MIN_DUTY = 0.0001;
/** The number of lamps in a seven-segment digit with a decimal point. */
const SEGMENT_COUNT = 8;

/**
 * Returns the perceived brightness of a lamp, from 0 to 1, rounded to hundredths.
 * @param {number} duty the duty cycle, from 0 to 1
 */
export function perceivedBrightness(duty) {
  return Math.round(100 * Math.min(1, duty) ** (1 / GAMMA)) / 100;
}

/**
 * Returns the brightness level of a lamp: 0 for dark, otherwise 1 (dim) to `FULL_LEVEL`.
 * @param {number} duty the duty cycle
 */
export function brightnessLevel(duty) {
  return LEVEL_THRESHOLDS.filter((minDuty) => duty >= minDuty).length;
}

/**
 * Decides whether a lamp or display is steady. A "rest" is an interval without a change. A lamp is steady if the current rest is at least
 * EYE_PERSISTENCE_MS. A rest of at least MIN_REST_MS is also enough if it is more than twice the longest rest in the current series of
 * changes. A single change is therefore perceived at once, and bits that shift through a chain are perceived at the end of the shift. A
 * flickering lamp is never steady.
 */
class SteadinessDetector {
  constructor() {
    /** The time since the last change, and the longest rest in the current series of changes, in milliseconds. */
    this.currentRest = Infinity;
    this.longestRest = 0;
  }

  /**
   * Updates the current and the longest rest with the changes in a period.
   * @param {ChangeSummary} changes the changes in the period
   * @param {number} cycles the length of the period in cycles
   * @param {number} time the length of the period in milliseconds; Infinity if earlier light must be ignored
   */
  add(changes, cycles, time) {
    if (time === Infinity) {
      this.currentRest = 0;
      this.longestRest = Infinity;
    } else if (changes) {
      const restBefore = this.currentRest + (changes.first * time) / cycles;
      const longestBefore = restBefore < EYE_PERSISTENCE_MS ? Math.max(this.longestRest, restBefore) : 0;
      this.longestRest = Math.max(longestBefore, (changes.longest * time) / cycles);
      this.currentRest = (changes.afterLast * time) / cycles;
    } else {
      this.currentRest += time;
    }
  }

  /** True if the lamp or display is steady. */
  get isSteady() {
    return this.currentRest >= EYE_PERSISTENCE_MS || (this.currentRest >= MIN_REST_MS && this.currentRest > 2 * this.longestRest);
  }
}

/** A digit as an eye perceives it: a mixture of the patterns that the digit has shown. */
export class PerceivedDigit {
  constructor() {
    /** @type {Map<number, number>} the share of each pattern in the mixture, by pattern */
    this.shares = new Map();
    /** The pattern of a steady digit; UNLIT_PATTERN for a changing digit. */
    this.steadyPattern = UNLIT_PATTERN;
  }

  /**
   * Replaces the mixture with one steady pattern.
   * @param {number} pattern
   */
  showSteady(pattern) {
    if (pattern === this.steadyPattern) return;
    this.steadyPattern = pattern;
    this.shares.clear();
    this.shares.set(pattern, 1);
  }

  /**
   * Reduces the shares of all patterns in the mixture.
   * @param {number} remainingShare the factor for each share, from 0 to 1
   */
  fade(remainingShare) {
    this.steadyPattern = UNLIT_PATTERN;
    for (const [pattern, share] of this.shares) {
      if (share * remainingShare < MIN_DUTY) this.shares.delete(pattern);
      else this.shares.set(pattern, share * remainingShare);
    }
  }

  /**
   * Adds a share of a pattern to the mixture.
   * @param {number} pattern
   * @param {number} share the share of the pattern, from 0 to 1
   */
  add(pattern, share) {
    this.shares.set(pattern, (this.shares.get(pattern) || 0) + share);
  }

  /** The pattern with the largest share; 0 (dark) if the mixture is empty. */
  get pattern() {
    return this.largestComponent.pattern;
  }

  /** True if each pattern makes up less than half of the mixture. */
  get isSmeared() {
    const total = [...this.shares.values()].reduce((sum, share) => sum + share, 0);
    return this.largestComponent.share < MIN_ON_DUTY * total;
  }

  /** The pattern with the largest share of the mixture, and the size of this share. */
  get largestComponent() {
    const largest = { pattern: 0, share: 0 };
    for (const [pattern, share] of this.shares) if (share > largest.share) Object.assign(largest, { pattern, share });
    return largest;
  }

  /** The duty cycles of the segments a to g and of the decimal point. */
  get segments() {
    const duties = new Array(SEGMENT_COUNT).fill(0);
    for (const [pattern, share] of this.shares) {
      for (let segment = 0; segment < SEGMENT_COUNT; segment++) if (pattern & (1 << segment)) duties[segment] += share;
    }
    return duties;
  }
}

/** The perceived brightness of a board's lamps and displays. */
export class Brightness {
  /**
   * @param {Face} face
   * @param {number} count the number of lamps on the board
   */
  constructor(face, count) {
    /** @type {number[]} the duty cycle of each lamp */
    this.lampDuties = new Array(count).fill(0);
    /** @type {boolean[]} for each lamp, whether it is perceived as on */
    this.isOn = [];
    const groups = fittingGroups(face, count);
    this.displays = groups.filter(({ kind }) => kind === "display");
    /** @type {number[][]} for each multiplexed group that is not a display, the duty cycles of its lamps, row by row */
    this.scannedGroups = groups.filter((group) => isMultiplexed(group) && group.kind !== "display")
      .map(({ rows, columns }) => new Array(rows * columns).fill(0));
    /** @type {PerceivedDigit[][]} */
    this.digits = [];
    /** @type {SteadinessDetector[]} the steadiness detector of each lamp */
    this.lampSteadiness = [];
    /** @type {SteadinessDetector[]} the steadiness detector of each display */
    this.displaySteadiness = [];
    this.begin("");
  }

  /**
   * Resets the brightness to the state of the lamps at one instant.
   * @param {string} marks one mark per lamp, `*` if the lamp is on
   */
  begin(marks) {
    this.isOn = this.lampDuties.map((_, lamp) => isLit(marks, lamp));
    this.lampDuties = this.isOn.map(Number);
    this.digits = this.displays.map(({ rows }) => Array.from({ length: rows }, () => new PerceivedDigit()));
    this.scannedGroups = this.scannedGroups.map((lamps) => lamps.map(() => 0));
    this.lampSteadiness = this.lampDuties.map(() => new SteadinessDetector());
    this.displaySteadiness = this.displays.map(() => new SteadinessDetector());
  }

  /**
   * Updates the brightness with the lamp measurements of a period.
   * @param {LitShares} litShares the measurements
   * @param {number} time the length of the period in milliseconds; Infinity if earlier light must be ignored
   */
  add(litShares, time) {
    const { cycles } = litShares;
    if (cycles === 0) return;
    const remainingShare = Math.exp(-time / EYE_PERSISTENCE_MS);
    this.updateDuties(this.lampDuties, litShares.lamps, cycles, remainingShare);
    this.lampSteadiness.forEach((detector, lamp) => {
      detector.add(litShares.changeSummaries[lamp], cycles, time);
      const { isSteady } = detector;
      const isLitNow = isLit(litShares.marks, lamp);
      // A steady lamp that is on has full brightness at once. A lamp that goes off fades, so that a short flash stays visible.
      if (isSteady && isLitNow) this.lampDuties[lamp] = 1;
      this.isOn[lamp] = isSteady ? isLitNow : this.lampDuties[lamp] >= MIN_ON_DUTY;
    });
    this.scannedGroups.forEach((duties, index) => this.updateDuties(duties, litShares.scanned[index], cycles, remainingShare));
    litShares.displays.forEach((display, index) => {
      this.displaySteadiness[index].add(display.changeSummary, cycles, time);
      this.updateDisplay(index, display, cycles, remainingShare);
    });
  }

  /**
   * Updates duty cycles with the lamp measurements of a period.
   * @param {number[]} duties the duty cycles, by lamp
   * @param {number[]} litCycles the number of cycles for which each lamp was on
   * @param {number} cycles the length of the period in cycles
   * @param {number} remainingShare the share of the earlier light that remains, from 0 to 1
   */
  updateDuties(duties, litCycles, cycles, remainingShare) {
    for (let index = 0; index < duties.length; index++) {
      const duty = duties[index] * remainingShare + (litCycles[index] / cycles) * (1 - remainingShare);
      duties[index] = duty < MIN_DUTY ? 0 : duty;
    }
  }

  /**
   * Updates a display with the patterns of a period. Only a steady display without multiplexing shows its last patterns at once.
   * @param {number} displayIndex the index of the display
   * @param {ShownDisplay} shown the patterns
   * @param {number} cycles the length of the period in cycles
   * @param {number} remainingShare the share of the earlier light that remains, from 0 to 1
   */
  updateDisplay(displayIndex, { patterns, changeSummary, patternTimes }, cycles, remainingShare) {
    const isSteady = this.displaySteadiness[displayIndex].isSteady && !isMultiplexed(this.displays[displayIndex]);
    this.digits[displayIndex].forEach((digit, index) => {
      if (isSteady) {
        digit.showSteady(patterns[index]);
        return;
      }
      digit.fade(remainingShare);
      if (changeSummary) for (const [pattern, time] of patternTimes[index]) digit.add(pattern, (time / cycles) * (1 - remainingShare));
      else if (patterns[index] !== UNLIT_PATTERN) digit.add(patterns[index], 1 - remainingShare);
    });
  }

  /** For each display, the pattern with the largest share in each digit. */
  get patterns() {
    return this.digits.map((display) => display.map(({ pattern }) => pattern));
  }
}
