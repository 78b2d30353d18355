// Converts a counterexample of the prover, which is a list of inputs, to steps. Runs the steps on the bench to confirm the violation,
// minimises the steps, and formats them as a test.

import { readCounter } from "../bench/answers.js";
import { MAX_RUN_CYCLES } from "../engine/key_queue.js";
import { formatViolationLines, formatTest } from "../explore/counterexample_test.js";
import { listAddresses } from "../explore/properties.js";
import { Minimiser } from "../explore/minimiser.js";
import { Watcher } from "../explore/walk_watcher.js";
import { initialDownInputs, areStepsAllowed, formatWalkLines } from "../explore/walks.js";
import { countCyclesToMistake } from "./mistakes.js";
import { listInputs, replayReads } from "./input_replay.js";

/**
 * @typedef {import("../explore/campaign.js").Campaign} Campaign
 * @typedef {import("../explore/search_inputs.js").Input} Input
 * @typedef {import("../explore/search.js").Violation} Violation
 * @typedef {import("../explore/subject.js").Subject} Subject
 * @typedef {import("../explore/walks.js").WalkStep} WalkStep
 * @typedef {import("./question.js").Reads} Reads
 *
 * A counterexample. `steps`: the number of changes of inputs. `cycles`: the time of the violation. `isAllowed`: true if the properties text
 * allows these changes. `text`: a test, or bench lines if a pressed key has no name (`isTest` is then false). `linesBefore`: the bench
 * lines that lead to the instruction that violates the property.
 * @typedef {{ steps: number, cycles: number, isAllowed: boolean, isTest: boolean, text: string, linesBefore: string }} Counterexample
 */

/** The maximum number of cycles that the bench may run to minimise a counterexample. */
const MAX_CYCLES_TO_MINIMISE = 10e6;
/**
 * A counterexample to a property with labels is minimised only if its length is at most this number of cycles, because minimising a longer
 * one would take too long.
 */
const MAX_MINIMISED_CYCLES = 1e6;
/** The property forms that depend on all events since power-on. A violation is found only if the walk is watched from its start. */
const FORMS_WITH_MEMORY = new Set(["calls", "returns", "never for", "every", "within", "only after", "no press"]);

/**
 * Returns a campaign that checks one property and allows any change of any input at any time.
 * @param {Campaign} campaign
 * @param {number} property the index of the property in the campaign
 * @param {Input[]} inputs
 * @returns {Campaign}
 */
function createFreeCampaign(campaign, property, inputs) {
  return {
    ...campaign, inputs, properties: [campaign.properties[property]], maxKeysDown: Infinity, maxHoldTime: Infinity, minReleaseTime: 0,
    checkStart: 0, minWait: 1, maxWait: MAX_RUN_CYCLES, from: null, leadingLines: [],
  };
}

/**
 * Separates input changes: returns steps in which successive changes are at least `minWait` cycles apart. At least one cycle comes before
 * the first change, because a run takes at least one cycle. To separate changes, moves them to earlier cycles. Returns null if there are
 * not enough earlier cycles.
 * @param {WalkStep[]} steps
 * @param {number} minWait
 */
function separateChanges(steps, minWait) {
  /** @type {WalkStep[]} */
  const separateSteps = [];
  let missingCycles = 0;
  for (const [at, step] of [...steps.entries()].reverse()) {
    const wait = step.wait - missingCycles;
    missingCycles = Math.max(0, (at > 0 ? minWait : 1) - wait);
    separateSteps.unshift({ ...step, wait: wait + missingCycles });
  }
  return missingCycles > 0 ? null : separateSteps.flatMap(splitLongWait);
}

/**
 * Splits a step into several steps if its wait is too long for one run of the bench.
 * @param {WalkStep} step
 * @returns {WalkStep[]}
 */
function splitLongWait(step) {
  const waits = createWaits(step.wait);
  const { wait = 0 } = waits.pop() || {};
  return [...waits, { ...step, wait }];
}

/**
 * Splits a number of cycles into the lengths of consecutive runs, each of at most MAX_RUN_CYCLES cycles.
 * @param {number} cycles
 */
function splitCycles(cycles) {
  const waits = [];
  for (let remaining = cycles; remaining > 0; remaining -= MAX_RUN_CYCLES) waits.push(Math.min(remaining, MAX_RUN_CYCLES));
  return waits;
}

/**
 * Returns steps that only wait, for a number of cycles in total.
 * @param {number} cycles
 * @returns {WalkStep[]}
 */
const createWaits = (cycles) => splitCycles(cycles).map((wait) => ({ wait, kind: "none", input: -1 }));

/**
 * Returns the steps whose input changes happen before `time`.
 * @param {WalkStep[]} steps
 * @param {number} time the time, in cycles from the start of the walk
 */
function listStepsBefore(steps, time) {
  let end = 0;
  return steps.filter(({ wait }) => {
    end += wait;
    return end < time;
  });
}

/**
 * Returns the smallest number of cycles between two successive changes of inputs; Infinity if there are fewer than two changes.
 * @param {WalkStep[]} steps
 */
function findShortestWait(steps) {
  let [shortest, cycles] = [Infinity, Infinity];
  for (const { wait, kind } of steps) {
    cycles += wait;
    if (kind === "none") continue;
    shortest = Math.min(shortest, cycles);
    cycles = 0;
  }
  return shortest;
}

/** Replays the prover's counterexample to one property. */
class Replay {
  /**
   * @param {Subject} subject
   * @param {Campaign} campaign
   * @param {number} property the index of the property in the campaign
   * @param {string} mistake the word for the common mistake that the property excludes; "" for other properties
   */
  constructor(subject, campaign, property, mistake) {
    this.subject = subject;
    this.mistake = mistake;
    this.allowedCampaign = campaign;
    this.freeCampaign = createFreeCampaign(campaign, property, listInputs(subject));
    this.initialDown = initialDownInputs(this.freeCampaign);
    const [{ form, guards, limit }] = this.freeCampaign.properties;
    /** True if the property excludes a common mistake that watching a walk cannot detect; `countCyclesToMistake` detects it. */
    this.excludesMistake = form === "mistake";
    this.needsFullWalk = FORMS_WITH_MEMORY.has(form) || guards.length > 0;
    /** The minimum number of cycles between two changes; 0 if inputs can change in the same cycle. */
    this.shortestAllowedWait = campaign.hasWait && campaign.minWait > 1 ? campaign.minWait : 0;
    /** The maximum length of a press in cycles. A longer press is forbidden by the properties text, or would not violate the property. */
    this.maxPressTime = Math.min(campaign.maxHoldTime, form === "no press" ? limit - 1 : Infinity);
  }

  /**
   * Returns the start of a walk: the session, the positions of the inputs, and the initial memory of the property.
   * @param {Uint8Array} file the session file at the start
   * @returns {import("../explore/walk_watcher.js").WalkStart}
   */
  createStart(file) {
    const { initialDown, freeCampaign: { inputs, properties: [property] } } = this;
    return { file, time: 0, downInputs: initialDown, memories: [property.createMemory(0, inputs)] };
  }

  /**
   * Returns the violation that happens if the program reads these inputs; null if the bench does not confirm the violation.
   * @param {Reads} reads
   * @returns {Violation | null}
   */
  findViolation(reads) {
    const { subject, allowedCampaign, freeCampaign, needsFullWalk, maxPressTime } = this;
    const { steps, releaseSteps, time, file, remainingCycles } =
      replayReads(subject, freeCampaign.inputs, reads, allowedCampaign, maxPressTime);
    const endTime = time + remainingCycles;
    if (needsFullWalk) return this.findViolationOnWalk([...steps, ...listStepsBefore(releaseSteps, remainingCycles)], endTime);
    const cycles = this.excludesMistake ? countCyclesToMistake(subject, file, this.mistake, remainingCycles)
      : this.findViolationTime(file, createWaits(remainingCycles + 1));
    if (cycles < 0) return null;
    return { property: 0, steps: [...steps, ...listStepsBefore(releaseSteps, cycles)], time: time + cycles };
  }

  /**
   * Returns the first violation on a walk from power-on until `endTime`; null if there is none.
   * @param {WalkStep[]} steps
   * @param {number} endTime
   * @returns {Violation | null}
   */
  findViolationOnWalk(steps, endTime) {
    const remainingCycles = steps.reduce((remaining, { wait }) => remaining - wait, endTime);
    // The additional cycle starts the instruction at the label of the property.
    const walkSteps = [...steps.flatMap(splitLongWait), ...createWaits(remainingCycles + 1)];
    const time = this.findViolationTime(this.subject.file, walkSteps);
    return time < 0 ? null : { property: 0, steps: listStepsBefore(steps, time), time };
  }

  /**
   * Returns the time of the first violation in a walk, in cycles from its start; -1 if there is none. Watches the walk step by step,
   * because the bench lines of a long walk would not fit into one call.
   * @param {Uint8Array} startFile the session file at the start
   * @param {WalkStep[]} steps
   */
  findViolationTime(startFile, steps) {
    const { subject: { engine }, freeCampaign } = this;
    const watcher = new Watcher(this.subject, freeCampaign, null);
    let start = this.createStart(startFile.slice());
    for (const step of steps) {
      // A run takes at least one cycle, but several inputs can change in the same cycle.
      const { violation, stepStates: [stepState] } = step.wait > 0 ? watcher.watch(start, [step], [0])
        : watcher.watchChange(start, step, [0]);
      if (violation) return violation.time;
      if (!stepState) return -1;
      engine.serve(start.file, formatWalkLines(freeCampaign, [step]), start.file);
      start = { ...stepState, file: start.file };
    }
    return -1;
  }

  /**
   * Minimises a violation if possible. Resolves to the minimised violation, or else to the original one. If the properties text allows the
   * original input changes, or would allow them with longer waits between them, it also allows the minimised ones.
   * @param {Violation} violation
   * @param {() => Promise<void>} yieldToMessages
   */
  async minimise(violation, yieldToMessages) {
    const { freeCampaign, allowedCampaign: { maxKeysDown, maxHoldTime, minReleaseTime }, shortestAllowedWait } = this;
    const isLong = violation.time > MAX_MINIMISED_CYCLES && freeCampaign.properties.some((property) => listAddresses(property).length > 0);
    if (this.excludesMistake || isLong) return violation;
    const minWait = Math.max(freeCampaign.minWait, shortestAllowedWait);
    const allowedSteps = separateChanges(violation.steps, minWait);
    if (allowedSteps && this.isAllowed({ ...violation, steps: allowedSteps })) {
      const campaign = { ...freeCampaign, maxKeysDown, maxHoldTime, minReleaseTime, minWait };
      const minimised = await this.minimiseWithin(campaign, { ...violation, steps: allowedSteps }, yieldToMessages);
      if (minimised && this.isAllowed(minimised)) return minimised;
    }
    if (this.isAllowed(violation)) return violation;
    const steps = separateChanges(violation.steps, freeCampaign.minWait);
    return steps && await this.minimiseWithin(freeCampaign, { ...violation, steps }, yieldToMessages) || violation;
  }

  /**
   * Minimises a violation within the limits of a campaign. Resolves to the minimised violation; null if the steps of the original violation
   * do not violate the property.
   * @param {Campaign} campaign
   * @param {Violation} violation
   * @param {() => Promise<void>} yieldToMessages
   */
  minimiseWithin(campaign, violation, yieldToMessages) {
    const { subject } = this;
    const start = this.createStart(subject.file);
    return new Minimiser(subject, campaign, start, violation, MAX_CYCLES_TO_MINIMISE, yieldToMessages).minimise();
  }

  /**
   * Returns whether the properties text allows the input changes of a violation at the times at which they happen.
   * @param {Violation} violation
   */
  isAllowed({ steps, time }) {
    const { allowedCampaign, freeCampaign, shortestAllowedWait } = this;
    const inputIndices = freeCampaign.inputs.map(({ downLine }) => (
      allowedCampaign.inputs.findIndex((input) => input.downLine === downLine)));
    const allowedSteps = steps.map((step) => ({ ...step, input: step.kind === "none" ? -1 : inputIndices[step.input] }));
    const remainingCycles = allowedSteps.reduce((remaining, { wait }) => remaining - wait, time);
    const isChecked = time > allowedCampaign.checkStart || allowedCampaign.checkStart === 0;
    return isChecked && allowedSteps.every(({ kind, input }) => kind === "none" || input >= 0)
      && areStepsAllowed(allowedCampaign, [...allowedSteps, { wait: remainingCycles, kind: "none", input: -1 }])
      && findShortestWait(steps) >= shortestAllowedWait;
  }

  /**
   * Returns a violation as a counterexample, with its test or its bench lines.
   * @param {Violation} violation
   * @returns {Counterexample}
   */
  formatCounterexample(violation) {
    const { subject, freeCampaign } = this;
    const isNamed = (/** @type {number} */ input) => !/^press \d+ \d+$/.test(freeCampaign.inputs[input].downTestLine);
    const isTest = violation.steps.every(({ kind, input }) => kind === "none" || isNamed(input));
    const text = isTest ? formatTest(subject, subject.file, freeCampaign, violation) : formatViolationLines(freeCampaign, violation);
    const steps = violation.steps.filter(({ kind }) => kind !== "none").length;
    const linesBefore = this.formatLinesBefore(violation);
    return { steps, cycles: violation.time, isAllowed: this.isAllowed(violation), isTest, text, linesBefore };
  }

  /**
   * Returns the bench lines that lead to the instruction that violates the property. If an input changes between the two cycles of this
   * instruction, the lines end before its second cycle.
   * @param {Violation} violation
   */
  formatLinesBefore(violation) {
    const { subject: { engine, file }, freeCampaign } = this;
    const lastChangeTime = violation.steps.reduce((sum, { wait }) => sum + wait, 0);
    const formatLinesTo = (/** @type {number} */ time) => (
      formatViolationLines(freeCampaign, { ...violation, time: Math.max(lastChangeTime, time) }));
    const { answers } = engine.ask(file, `${formatLinesTo(violation.time - 1)}regs\n`);
    const { owed } = readCounter(answers[answers.length - 1]);
    return formatLinesTo(violation.time - (owed === "1" ? 2 : 1));
  }
}

/**
 * Resolves to the minimised counterexample in which the program reads given inputs; null if the bench does not confirm the violation.
 * @param {Subject} subject
 * @param {Campaign} campaign
 * @param {number} property the index of the property in the campaign
 * @param {Reads} reads the inputs, in the order in which the program reads them
 * @param {() => Promise<void>} yieldToMessages
 * @param {string} [mistake] the word for the common mistake that the property excludes
 */
export async function replayCounterexample(subject, campaign, property, reads, yieldToMessages, mistake = "") {
  const replay = new Replay(subject, campaign, property, mistake);
  const violation = replay.findViolation(reads);
  return violation && replay.formatCounterexample(await replay.minimise(violation, yieldToMessages));
}
