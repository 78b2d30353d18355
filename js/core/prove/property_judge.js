// Decides properties one after the other: asks the prover, and derives a verdict from its answers. The properties of the properties text
// come first. After them come the common mistakes, for which every program is checked. The first question about a property is for all
// inputs. If its answer does not decide the property, the next questions are only for inputs that the text allows. The last ones also use
// the shortest wait in the text. Callbacks ask the prover and confirm counterexamples.

import { formatNumber, formatSteps } from "../explore/report.js";
import { replayCounterexample } from "./counterexample.js";
import { explainMissingPressLimit, listInputLimits, listPropertyLimits } from "./input_limits.js";
import { JointQuestion } from "./joint_question.js";
import { listMistakes } from "./mistakes.js";
import { createQuestion, describeOmittedGuards, createMistakeQuestion, needsCounting, needsSeparateQuestion } from "./question.js";
import * as say from "../../words/prove.js";

/**
 * @typedef {import("./counterexample.js").Counterexample} Counterexample
 * @typedef {import("./question.js").Answer} Answer
 * @typedef {import("./question.js").NoAnswer} NoAnswer
 * @typedef {import("./question.js").PropertyQuestion} PropertyQuestion
 * @typedef {import("./question.js").Question} Question
 * @typedef {import("./verdicts.js").JudgedProperty} JudgedProperty
 * @typedef {import("./verdicts.js").Verdict} Verdict
 * @typedef {import("../explore/campaign.js").Campaign} Campaign
 * @typedef {import("../explore/properties.js").Property} Property
 * @typedef {import("../explore/subject.js").Subject} Subject
 *
 * @typedef {object} JudgingCalls
 * @property {(question: Question) => Promise<Answer>} ask asks the prover
 * @property {(question: Question) => Promise<Answer>} askBySets asks the prover for a proof by sets of states, which is fast but never
 *   finds a counterexample
 * @property {(counterexample: Counterexample, isGoal: boolean) => Promise<boolean>} confirm resolves to true if the test of a
 *   counterexample fails; for a goal, if the test passes
 * @property {(answer: NoAnswer) => string} explainNoAnswer returns, as text, why an answer leaves the property undecided
 * @property {() => Promise<void>} yieldToMessages yields to other tasks while a counterexample is minimised
 */

/**
 * The answers to a combined question that also apply to each of its properties, because a search for a single property would visit the same
 * states in the same order.
 * @type {Set<Answer["kind"]>}
 */
const FINAL_ANSWERS = new Set(["holds", "more", "full"]);
/**
 * The answers to the question about all common mistakes that also apply to each single mistake.
 * @type {Set<Answer["kind"]>}
 */
const FINAL_MISTAKE_ANSWERS = new Set(["holds", "more", "full", "lost"]);

/**
 * Returns the verdict that a property is proved.
 * @param {Property} property
 * @param {number} states the number of states in the proof, or of sets of states
 * @param {boolean} bySets true if the proof uses sets of states
 * @param {string[]} limits the lines of the properties text that set the limits on the inputs that the proof needs
 * @returns {Verdict}
 */
const createProvedVerdict = (property, states, bySets, limits) => (
  { kind: "proved", states, bySets, limits, leftOut: describeOmittedGuards(property) });

/**
 * Returns the reason why a property stays undecided if the bench does not confirm the prover's counterexample.
 * @param {Property} property
 * @param {Question} question
 * @param {Campaign} campaign
 * @param {Subject} subject
 */
function explainUnconfirmedCounterexample(property, { inputLimits }, campaign, { names: { board } }) {
  const { form, guards, isGoal, limit } = property;
  if (guards.length > 0) return say.failsWithoutGuards(describeOmittedGuards(property), isGoal);
  if (form === "only after") return say.TRUE_BEFORE_KEYS_ARE_READ;
  if (form !== "no press") return say.NOT_CONFIRMED;
  const maxPressTime = inputLimits && inputLimits.maxPressTime;
  if (maxPressTime !== null && maxPressTime >= limit) return say.allowsLongerPresses(formatNumber(maxPressTime));
  return explainMissingPressLimit(property, campaign, board) || say.UNSEEN_RELEASES;
}

/**
 * Returns whether a verdict is a proof, or a counterexample with inputs that the properties text allows.
 * @param {Verdict} verdict
 */
const isFinalVerdict = (verdict) => verdict.kind === "proved" || (verdict.kind === "found" && verdict.counterexample.isAllowed);

export class PropertyJudge {
  /**
   * @param {Subject} subject
   * @param {Campaign} campaign
   * @param {JudgingCalls} calls
   */
  constructor(subject, campaign, calls) {
    this.subject = subject;
    this.campaign = campaign;
    this.calls = calls;
    /** @type {{ property: Property, propertyQuestion: PropertyQuestion }[]} the properties of the properties text, with their questions */
    this.textProperties = campaign.properties.filter(({ line }) => line > 0)
      .map((property) => ({ property, propertyQuestion: createQuestion(property, campaign, subject) }));
    this.mistakes = listMistakes();
    /** The limits that the properties text sets on the inputs, one element for each successive attempt of a proof. */
    this.inputLimits = listInputLimits(campaign, subject.names.board);
    /** The number of properties and common mistakes that have a verdict. */
    this.judgedCount = 0;
    /** The questions about properties that can be combined into one. */
    this.jointQuestion = new JointQuestion(this.textProperties.flatMap(({ property, propertyQuestion: { question } }) => (
      !question || needsSeparateQuestion(property, question) ? [] : [question])), FINAL_ANSWERS, calls.ask);
    /** @type {Verdict | null} the verdict if a proof by sets of states shows that the program makes no common mistake; otherwise null */
    this.noMistakeVerdict = null;
    /** The question about all common mistakes. */
    this.anyMistakeQuestion = new JointQuestion(
      this.mistakes.map(({ word }) => createMistakeQuestion([word])), FINAL_MISTAKE_ANSWERS, calls.ask);
  }

  /** The number of properties and common mistakes. */
  get total() {
    return this.textProperties.length + this.mistakes.length;
  }

  /**
   * Returns the text of a property or of a common mistake.
   * @param {number} index the index in the list of all properties and common mistakes
   */
  textOf(index) {
    const { textProperties, mistakes } = this;
    return (index < textProperties.length ? textProperties[index] : mistakes[index - textProperties.length]).property.text;
  }

  /**
   * Decides the next property or common mistake. Resolves to null after the last one.
   * @returns {Promise<JudgedProperty | null>}
   */
  async judgeNext() {
    const { textProperties, mistakes, judgedCount, total } = this;
    if (judgedCount === total) return null;
    const judgedProperty = judgedCount < textProperties.length ? await this.judgeProperty(textProperties[judgedCount])
      : await this.judgeMistake(mistakes[judgedCount - textProperties.length]);
    this.judgedCount += 1;
    return judgedProperty;
  }

  /**
   * Decides a property of the properties text. The verdict is `open` if the prover does not support the property.
   * @param {{ property: Property, propertyQuestion: PropertyQuestion }} textProperty
   * @returns {Promise<JudgedProperty>}
   */
  async judgeProperty({ property, propertyQuestion }) {
    if (!propertyQuestion.question) return { property, verdict: { kind: "open", reason: propertyQuestion.reason } };
    const verdict = await this.judge(property, propertyQuestion.question, async (question) => (
      this.createVerdict(property, question, await this.askAbout(property, question), this.campaign, "")));
    return { property, verdict };
  }

  /**
   * Decides whether the program can make a common mistake. First asks the prover about all common mistakes together. If any of them is
   * possible, asks about the given mistake separately.
   * @param {import("./mistakes.js").Mistake} mistake
   * @returns {Promise<JudgedProperty>}
   */
  async judgeMistake({ property, word }) {
    const { anyMistakeQuestion } = this;
    if (this.judgedCount === this.textProperties.length) {
      this.noMistakeVerdict = await this.proveBySets(property, anyMistakeQuestion.question);
    }
    if (this.noMistakeVerdict) return { property, verdict: this.noMistakeVerdict };
    const campaign = { ...this.campaign, properties: [property] };
    const verdict = await this.judge(property, createMistakeQuestion([word]), async (question) => (
      this.createVerdict(property, question, await anyMistakeQuestion.askAbout(question), campaign, word)));
    return { property, verdict };
  }

  /**
   * Tries to prove a property by sets of states. Resolves to the verdict, or to null if this fails. A proof by sets of states cannot count
   * cycles or presses.
   * @param {Property} property
   * @param {Question} question
   * @returns {Promise<Verdict | null>}
   */
  async proveBySets(property, question) {
    if (needsCounting(question)) return null;
    const answer = await this.calls.askBySets(question);
    return answer.kind === "holds" ? createProvedVerdict(property, answer.states, true, []) : null;
  }

  /**
   * Tries a proof by sets of states if a verdict is open. Resolves to the new verdict if the proof succeeds, otherwise to the old one.
   * @param {Property} property
   * @param {Verdict} verdict
   * @param {Question} question
   */
  async retryOpenVerdict(property, verdict, question) {
    return (verdict.kind === "open" && await this.proveBySets(property, question)) || verdict;
  }

  /** Judges all properties and common mistakes. Resolves to their verdicts. */
  async judgeAll() {
    const judgedProperties = [];
    for (let next = await this.judgeNext(); next; next = await this.judgeNext()) judgedProperties.push(next);
    return judgedProperties;
  }

  /**
   * Decides a property: for all inputs by a search, then by sets of states, and then for the inputs that the properties text allows. Does
   * each step only if the earlier steps leave the property undecided.
   * @param {Property} property
   * @param {Question} question the question for all inputs
   * @param {(question: Question) => Promise<Verdict>} search asks the prover to search, and resolves to the verdict
   * @returns {Promise<Verdict>}
   */
  async judge(property, question, search) {
    let verdict = await this.retryOpenVerdict(property, await search(question), question);
    for (const inputLimits of listPropertyLimits(property, this.campaign, this.inputLimits, this.subject.names.board)) {
      if (isFinalVerdict(verdict)) break;
      const limitedVerdict = await search({ ...question, inputLimits });
      // If this search is inconclusive, keeps the verdict of an earlier search that reached a goal, even with inputs that the text forbids.
      if (limitedVerdict.kind !== "open" || verdict.kind !== "found") verdict = limitedVerdict;
    }
    return verdict;
  }

  /**
   * Resolves to the verdict that follows from the prover's answer about a property.
   * @param {Property} property
   * @param {Question} question
   * @param {Answer} answer
   * @param {Campaign} campaign a campaign that contains the property
   * @param {string} mistake the word for the common mistake that the property excludes; "" for other properties
   * @returns {Promise<Verdict>}
   */
  async createVerdict(property, question, answer, campaign, mistake) {
    const { inputLimits } = question;
    if (answer.kind === "holds") return createProvedVerdict(property, answer.states, false, inputLimits ? inputLimits.words : []);
    if (answer.kind !== "fails") return { kind: "open", reason: this.calls.explainNoAnswer(answer) };
    const { subject, calls } = this;
    const index = campaign.properties.indexOf(property);
    const counterexample = await replayCounterexample(subject, campaign, index, answer.reads, calls.yieldToMessages, mistake);
    if (!counterexample) return { kind: "open", reason: explainUnconfirmedCounterexample(property, question, campaign, subject) };
    if (!await calls.confirm(counterexample, property.isGoal)) return { kind: "open", reason: say.NOT_CONFIRMED };
    if (counterexample.isAllowed || property.isGoal) return { kind: "found", counterexample };
    return { kind: "open", reason: say.onlyExcludedInputs(formatSteps(counterexample.steps)) };
  }

  /**
   * Asks the prover about a property, and resolves to its answer. First asks the combined question about several properties, if possible.
   * If the answer does not decide this property, asks about it separately.
   * @param {Property} property
   * @param {Question} question
   */
  async askAbout(property, question) {
    return needsSeparateQuestion(property, question) ? this.calls.ask(question) : this.jointQuestion.askAbout(question);
  }
}
