// Runs a campaign: searches for counterexamples, minimises and confirms them, and creates the report.

import { describeOmittedGuards } from "../prove/question.js";
import { formatTest, formatViolationLines } from "./counterexample_test.js";
import { Model } from "./model.js";
import { InitialProof } from "./initial_proof.js";
import { Search } from "./search.js";
import { Minimiser } from "./minimiser.js";
import { createRandom } from "./walks.js";

/**
 * @typedef {import("./campaign.js").Campaign} Campaign
 * @typedef {import("./report.js").Report} Report
 * @typedef {import("./report.js").Counterexample} Counterexample
 * @typedef {import("./search.js").Violation} Violation
 * @typedef {import("./subject.js").Subject} Subject
 *
 * A function that runs the test of a counterexample and returns whether the test has the expected result: it must fail or, if the property
 * is a goal, pass.
 * @typedef {(test: string, isGoal: boolean) => boolean | Promise<boolean>} ConfirmTest
 *
 * A confirmed counterexample: the index of its property, its test (in `counterexample`), and its steps (in `violation`). `violation` is
 * null for a `model` property.
 * @typedef {{ property: number, counterexample: Counterexample, violation: Violation | null }} ConfirmedViolation
 */

/** The initial proof gets at most 1 / PROOF_TIME_DIVISOR of the search time. */
const PROOF_TIME_DIVISOR = 10;
/** The search stops checking a property after this number of counterexamples whose confirmation failed. */
const MAX_UNCONFIRMED_COUNTEREXAMPLES = 3;
/**
 * The maximum number of cycles to run while a counterexample is minimised: `perSecond` cycles for each second of search time, but at least
 * `min` and at most `max`.
 */
const MINIMISING_CYCLES = { perSecond: 2e6, min: 10e6, max: 60e6 };

/**
 * Returns the maximum number of cycles to run while a counterexample is minimised.
 * @param {number} seconds the search time
 */
export function minimisingCycleLimit(seconds) {
  return Math.max(MINIMISING_CYCLES.min, Math.min(MINIMISING_CYCLES.max, seconds * MINIMISING_CYCLES.perSecond));
}

/**
 * Returns the maximum time for the initial proof, in milliseconds.
 * @param {number} seconds the search time
 */
export function initialProofTime(seconds) {
  return 1000 * seconds / PROOF_TIME_DIVISOR;
}

async function doNotYield() {
  // Does nothing, because no other task is waiting.
}

export class CampaignRun {
  /**
   * @param {Subject} subject
   * @param {Campaign} campaign
   * @param {number} seed
   * @param {ConfirmTest} confirm
   * @param {number} minimisingLimit the maximum number of cycles for minimising a counterexample
   * @param {import("./model.js").ModelCommand | null} [modelCommand] the command of a model
   * @param {() => Promise<void>} [yieldToMessages] yields to other tasks while a counterexample is minimised
   * @param {number} [proofTime] the maximum time for the initial proof, in milliseconds
   */
  constructor(subject, campaign, seed, confirm, minimisingLimit, modelCommand = null, yieldToMessages = doNotYield, proofTime = 0) {
    this.subject = subject;
    this.campaign = campaign;
    this.seed = seed;
    this.confirm = confirm;
    this.minimisingLimit = minimisingLimit;
    this.yieldToMessages = yieldToMessages;
    this.search = new Search(subject, campaign, seed);
    this.proof = new InitialProof(subject, campaign, proofTime);
    /** The time spent so far by the search, the proof and the model, in milliseconds. */
    this.timeSpent = { search: 0, proof: 0, model: 0 };
    /** The index of the `model` property; -1 if the search has no model command. */
    this.modelIndex = modelCommand ? campaign.properties.findIndex(({ form }) => form === "model") : -1;
    this.model = modelCommand && this.modelIndex >= 0
      ? new Model(subject, campaign, this.search.start, modelCommand, createRandom(seed)) : null;
    /** @type {(Counterexample | null)[]} */
    this.counterexamples = campaign.properties.map(() => null);
    this.unconfirmedCounts = campaign.properties.map(() => 0);
    /** @type {string[]} the tests of counterexamples whose confirmation failed */
    this.unconfirmedTests = [];
  }

  /** True if no property is left to check. */
  get isDone() {
    return this.search.openProperties.length === 0 && !this.usesModel;
  }

  /** True if the search still compares the display with the model's output. */
  get usesModel() {
    return this.model !== null && this.counterexamples[this.modelIndex] === null
      && this.unconfirmedCounts[this.modelIndex] < MAX_UNCONFIRMED_COUNTEREXAMPLES;
  }

  /** The error message of the model command, or "". */
  get error() {
    return this.model ? this.model.error : "";
  }

  /**
   * Compares the display with the model's output after several key sequences. Resolves to the first confirmed difference, or to null.
   * @param {Model} model
   * @returns {Promise<ConfirmedViolation | null>}
   */
  async askModel(model) {
    const difference = await model.trySequences();
    if (!difference) return null;
    const test = model.formatTest(this.campaign.properties[this.modelIndex].text, difference);
    if (!(await this.confirm(test, false))) return this.recordUnconfirmed(this.modelIndex, test);
    const counterexample = { test, steps: 2 * difference.keys.length, cycles: difference.cycles, seed: this.seed };
    this.recordCounterexample(this.modelIndex, counterexample);
    return { property: this.modelIndex, counterexample, violation: null };
  }

  /**
   * Continues the campaign: compares key sequences with the model, asks the prover one question, or searches for a number of milliseconds.
   * Minimising a counterexample takes additional time.
   * @param {number} milliseconds the time limit for the search; it does not limit the model and the prover
   * @returns {Promise<ConfirmedViolation | null>} a confirmed counterexample; null if none was found
   */
  async runFor(milliseconds) {
    const startTime = performance.now();
    if (this.model && this.usesModel && (this.timeSpent.model <= this.timeSpent.search || this.search.openProperties.length === 0)) {
      const confirmedViolation = await this.askModel(this.model);
      this.timeSpent.model += performance.now() - startTime;
      return confirmedViolation;
    }
    if (this.proof.canContinue) {
      for (const at of this.proof.askNextQuestion()) this.search.closeProperty(at);
      this.timeSpent.proof += performance.now() - startTime;
      return null;
    }
    const violation = this.search.walkFor(milliseconds);
    this.timeSpent.search += performance.now() - startTime;
    return violation && this.confirmViolation(violation);
  }

  /**
   * Minimises and confirms a violation. Resolves to the confirmed violation, or to null if the confirmation fails.
   * @param {Violation} violation
   * @returns {Promise<ConfirmedViolation | null>}
   */
  async confirmViolation(violation) {
    const { campaign, subject, search: { start } } = this;
    const minimiser = new Minimiser(subject, campaign, start, violation, this.minimisingLimit, this.yieldToMessages);
    const minimised = await minimiser.minimise() || violation;
    const { isGoal } = campaign.properties[minimised.property];
    const test = formatTest(subject, start.file, campaign, minimised);
    if (!(await this.confirm(test, isGoal))) return this.recordUnconfirmed(minimised.property, test);
    const counterexample = { test, steps: minimised.steps.length, cycles: minimised.time, seed: this.seed };
    this.recordCounterexample(minimised.property, counterexample);
    return { property: minimised.property, counterexample, violation: minimised };
  }

  /**
   * Returns the session file at the end of a counterexample.
   * @param {Violation} violation
   */
  createSessionFile(violation) {
    const { campaign, subject: { engine }, search: { start } } = this;
    const file = start.file.slice();
    engine.serve(file, formatViolationLines(campaign, violation), file);
    return file;
  }

  /**
   * Stores the counterexample of a property, and ends the search for other counterexamples of this property.
   * @param {number} property
   * @param {Counterexample} counterexample
   */
  recordCounterexample(property, counterexample) {
    this.counterexamples[property] = counterexample;
    this.search.closeProperty(property);
  }

  /**
   * Stores the test of a counterexample whose confirmation failed. After MAX_UNCONFIRMED_COUNTEREXAMPLES such tests, the search no longer
   * checks this property. Returns null.
   * @param {number} property
   * @param {string} test
   */
  recordUnconfirmed(property, test) {
    this.unconfirmedTests.push(test);
    this.unconfirmedCounts[property] += 1;
    if (this.unconfirmedCounts[property] >= MAX_UNCONFIRMED_COUNTEREXAMPLES) this.search.closeProperty(property);
    return null;
  }

  /**
   * Returns the report of the search so far.
   * @param {Pick<Report, "names" | "sums" | "seconds" | "isStopped">} details the parts of the report that the caller supplies
   * @returns {Report}
   */
  createReport(details) {
    const { campaign: { properties }, search, subject: { instructions }, proof } = this;
    return {
      form: "explore 1", ...details, seeds: [this.seed], steps: search.steps, states: search.stateCount, covered: search.coverage.text,
      instructions,
      properties: properties.map((property, at) => ({
        text: property.text, line: property.line, isGoal: property.isGoal, isSkipped: property.form === "model" && this.model === null,
        applied: search.appliedProperties.has(at) || property.isGoal,
        chains: this.model && at === this.modelIndex ? this.model.sequenceCount : 0,
        states: proof.states[at], limits: proof.limits[at], leftOut: describeOmittedGuards(property), found: this.counterexamples[at],
      })),
    };
  }
}
