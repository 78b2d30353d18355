// Minimises a counterexample: removes steps and shortens waits as long as the same property is violated.

import { MAX_RUN_CYCLES } from "../engine/key_queue.js";
import { Watcher } from "./walk_watcher.js";
import { updateDownInputs, initialDownInputs, areStepsAllowed, findLongestWaitAfter } from "./walks.js";

/**
 * @typedef {import("./campaign.js").Campaign} Campaign
 * @typedef {import("./search.js").Violation} Violation
 * @typedef {import("./subject.js").Subject} Subject
 * @typedef {import("./walks.js").WalkStep} WalkStep
 */

/** Each step counts as this number of cycles towards the cycle limit, in addition to its wait. */
const STEP_COST = 500;
/** The number of lengths that `removeStart` tries for the first wait. Each length is one cycle more than the previous length. */
const MAX_EXTRA_CYCLES = 256;
/** The fractions to which `shortenWaits` tries to shorten a wait. */
const WAIT_FRACTIONS = [0, 1 / 4, 1 / 2, 3 / 4, 7 / 8, 15 / 16, 63 / 64];

export class Minimiser {
  /**
   * @param {Subject} subject
   * @param {Campaign} campaign
   * @param {import("./walk_watcher.js").WalkStart} start
   * @param {Violation} violation
   * @param {number} cycleLimit the maximum number of cycles to run; a limit in cycles gives the same result on every machine
   * @param {() => Promise<void>} yieldToMessages called before each try
   */
  constructor(subject, campaign, start, violation, cycleLimit, yieldToMessages) {
    this.campaign = campaign;
    // The watcher checks only the violated property.
    this.watcher = new Watcher(subject, { ...campaign, properties: [campaign.properties[violation.property]] }, null);
    this.start = { ...start, memories: [start.memories[violation.property]] };
    this.property = violation.property;
    this.steps = violation.steps;
    this.time = violation.time;
    this.cyclesLeft = cycleLimit;
    this.yieldToMessages = yieldToMessages;
  }

  /** @returns {Promise<Violation | null>} the minimised violation; null if the original steps do not violate the property */
  async minimise() {
    let isShorter = await this.tryWalk(this.steps);
    if (!isShorter) return null;
    while (isShorter && this.cyclesLeft > 0) {
      isShorter = await this.removeSteps();
      isShorter = (await this.removePairs()) || isShorter;
      isShorter = (await this.shortenWaits()) || isShorter;
      // `removeStart` needs the most tries, so it is called last.
      isShorter = isShorter || (await this.removeStart());
    }
    return { property: this.property, steps: this.steps, time: this.time };
  }

  /**
   * Replaces the current steps if the new steps also violate the property. Returns whether the steps were replaced. Does not try steps that
   * the campaign forbids. Tries no more steps after the cycle limit is reached.
   * @param {WalkStep[]} steps
   */
  async tryWalk(steps) {
    if (this.cyclesLeft <= 0 || !areStepsAllowed(this.campaign, steps)) return false;
    await this.yieldToMessages();
    const wait = Math.min(this.campaign.maxWait, findLongestWaitAfter(this.campaign, steps));
    const finalWait = wait > 0 ? [{ wait, kind: /** @type {const} */ ("none"), input: -1 }] : [];
    this.cyclesLeft -= [...steps, ...finalWait].reduce((sum, step) => sum + step.wait + STEP_COST, 0);
    const { violation } = this.watcher.watch(this.start, [...steps, ...finalWait], [0]);
    if (!violation) return false;
    this.steps = steps.slice(0, violation.step);
    this.time = violation.time;
    return true;
  }

  /** Removes steps, first many at a time, then few. Returns whether a step was removed. */
  async removeSteps() {
    let isShorter = false;
    for (let size = Math.ceil(this.steps.length / 2); size >= 1; size = size > 1 ? Math.ceil(size / 2) : 0) {
      for (let at = 0; at < this.steps.length;) {
        const isRemoved = (/** @type {number} */ index) => index >= at && index < at + size;
        if (await this.tryWithout(isRemoved)) isShorter = true;
        else at += 1;
      }
    }
    return isShorter;
  }

  /**
   * Tries to remove some steps: first together with their waits, then without their waits. Returns whether the property is still violated
   * in one of these tries.
   * @param {(index: number) => boolean} isRemoved
   */
  async tryWithout(isRemoved) {
    if (await this.tryWalk(this.steps.filter((_, index) => !isRemoved(index)))) return true;
    const stepsWithout = this.listStepsWithout(isRemoved);
    return stepsWithout !== null && (await this.tryWalk(stepsWithout));
  }

  /**
   * Returns the remaining steps. The wait of a removed step is added to the wait of the next remaining step. Returns null if a wait becomes
   * too long.
   * @param {(index: number) => boolean} isRemoved
   */
  listStepsWithout(isRemoved) {
    const { campaign } = this;
    let downInputs = initialDownInputs(campaign);
    let cyclesSinceStep = 0;
    /** @type {WalkStep[]} */
    const remainingSteps = [];
    for (const [at, step] of this.steps.entries()) {
      cyclesSinceStep += step.wait;
      if (isRemoved(at)) continue;
      // While no input is down, a wait can exceed the maximum of the campaign, but not the maximum length of a `run`.
      if (cyclesSinceStep > (downInputs.length > 0 ? campaign.maxWait : MAX_RUN_CYCLES)) return null;
      remainingSteps.push({ ...step, wait: cyclesSinceStep });
      downInputs = updateDownInputs(downInputs, step);
      cyclesSinceStep = 0;
    }
    return remainingSteps;
  }

  /** Removes a press together with its release. Returns whether such a pair was removed. */
  async removePairs() {
    for (let at = 0; at < this.steps.length; at++) {
      const { kind, input } = this.steps[at];
      const releaseIndex = this.steps.findIndex((step, index) => index > at && step.input === input);
      if (kind === "reset" || releaseIndex < 0) continue;
      if (await this.tryWithout((index) => index === at || index === releaseIndex)) return true;
    }
    return false;
  }

  /**
   * Removes all steps before a moment at which no input is down. The program is then in a different phase when the next input changes, so
   * this method also tries longer first waits. Returns whether steps were removed.
   */
  async removeStart() {
    const { campaign, steps } = this;
    let downInputs = initialDownInputs(campaign);
    const idleStepIndexes = steps.flatMap((step, at) => {
      const isIdle = downInputs.length === 0 && at > 0;
      downInputs = updateDownInputs(downInputs, step);
      return isIdle ? [at] : [];
    });
    for (const at of idleStepIndexes.reverse()) {
      // A wait cannot be longer than one `run` of the bench.
      for (let { wait } = steps[at]; wait < Math.min(steps[at].wait + MAX_EXTRA_CYCLES, MAX_RUN_CYCLES + 1); wait++) {
        if (await this.tryWalk([{ ...steps[at], wait }, ...steps.slice(at + 1)])) return true;
      }
    }
    return false;
  }

  /** Shortens waits. Returns whether a wait became shorter. */
  async shortenWaits() {
    let isShorter = false;
    for (let at = 0; at < this.steps.length; at++) {
      const { wait } = this.steps[at];
      for (const fraction of WAIT_FRACTIONS) {
        const shorterWait = Math.max(this.campaign.minWait, Math.floor(wait * fraction));
        if (shorterWait >= wait) continue;
        if (await this.tryWalk(this.steps.map((step, index) => (index === at ? { ...step, wait: shorterWait } : step)))) {
          isShorter = true;
          break;
        }
      }
    }
    return isShorter;
  }
}
