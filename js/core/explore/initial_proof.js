// Asks the prover about the properties before the search starts, because a proved property needs no search. First asks for a proof for all
// inputs. If there is none, asks for a proof for only the inputs that the properties text allows. The prover gets a part of the search
// time. Each round asks about all properties that are not proved yet, with twice the previous bound on the number of states.

import { listInputLimits, listPropertyLimits } from "../prove/input_limits.js";
import { listMistakes } from "../prove/mistakes.js";
import {
  createQuestion, listBounds, combineQuestions, createMistakeQuestion, needsSeparateQuestion, formatQuestion, readAnswer,
} from "../prove/question.js";

/**
 * @typedef {import("./campaign.js").Campaign} Campaign
 * @typedef {import("./subject.js").Subject} Subject
 *
 * A question for the prover, and the indices of the properties that a positive answer proves.
 * @typedef {{ properties: number[], question: import("../prove/question.js").Question }} PropertyQuestion
 */

/** The bound on the number of states in the first round, and the maximum bound. */
const FIRST_BOUND = 100;
const MAX_BOUND = 999999999;
/**
 * The `pause` parameter of a question, in cycles. A small value keeps the first question short for a program that seldom reads its inputs.
 */
const PAUSE_CYCLES = 100;

export class InitialProof {
  /**
   * @param {Subject} subject the subject; without a prover in its engine, no question is asked
   * @param {Campaign} campaign
   * @param {number} milliseconds the time limit; a question starts only if it will probably end in time
   */
  constructor(subject, campaign, milliseconds) {
    this.subject = subject;
    this.timeLeft = subject.engine.prove ? milliseconds : 0;
    /** The number of states in the proof of each property; 0 for unproved properties. */
    this.states = campaign.properties.map(() => 0);
    /** @type {string[][]} for each property, the lines of the properties text that set the input limits of its proof */
    this.limits = campaign.properties.map(() => []);
    const { board } = subject.names;
    const inputLimits = listInputLimits(campaign, board);
    /** For each property, the input limits for successive attempts to prove the property. */
    this.inputLimits = campaign.properties.map((property) => listPropertyLimits(property, campaign, inputLimits, board));
    const separateQuestions = this.timeLeft > 0 ? createQuestions(subject, campaign) : [];
    const combinableQuestions = separateQuestions.filter(({ properties: [at], question }) => (
      !needsSeparateQuestion(campaign.properties[at], question)));
    /**
     * The remaining questions. The first question can combine several later questions. These stay in the list in case the combined question
     * is not proved.
     * @type {PropertyQuestion[]}
     */
    this.questions = combinableQuestions.length > 1 ? [joinQuestions(combinableQuestions), ...separateQuestions] : separateQuestions;
    this.bounds = listBounds(MAX_BOUND, FIRST_BOUND);
    /** The number of questions that this round has already asked without a final answer. These questions are at the start of the list. */
    this.askedCount = 0;
    /** The duration of the last question in milliseconds. */
    this.lastDuration = 0;
  }

  /** True if there is another question and probably enough time for it. */
  get canContinue() {
    return this.questions.length > 0 && this.timeLeft > this.lastDuration;
  }

  /** Asks the next question. Returns the indices of the properties that the answer proves. */
  askNextQuestion() {
    const askedQuestion = this.questions[this.askedCount];
    const { properties, question } = askedQuestion;
    const startTime = performance.now();
    const answer = this.askProver(question);
    this.lastDuration = performance.now() - startTime;
    this.timeLeft -= this.lastDuration;
    if (answer.kind === "more") this.askedCount += 1;
    else this.questions.splice(this.askedCount, 1, ...(answer.kind === "fails" ? this.createLimitedQuestions(askedQuestion) : []));
    if (answer.kind === "holds") this.recordProof(properties, answer.states, question.inputLimits);
    if (answer.kind === "full" || answer.kind === "lost") this.questions = [];
    if (this.askedCount >= this.questions.length) this.raiseBound();
    return answer.kind === "holds" ? properties : [];
  }

  /**
   * Returns the prover's answer to a question; the answer `lost` if the prover reports an error.
   * @param {import("../prove/question.js").Question} question
   */
  askProver(question) {
    const { engine, texts } = this.subject;
    const limits = { maxStates: this.bounds[0], pause: PAUSE_CYCLES };
    const answer = engine.prove ? readAnswer(engine.prove(formatQuestion(texts, question, limits))) : null;
    return answer || { kind: /** @type {const} */ ("lost") };
  }

  /**
   * Returns a list with one question: the given question with the next input limits. Returns an empty list if there are no further limits,
   * or if the given question is about several properties.
   * @param {PropertyQuestion} propertyQuestion
   */
  createLimitedQuestions({ properties, question }) {
    const inputLimits = this.inputLimits[properties[0]];
    const nextIndex = question.inputLimits ? inputLimits.indexOf(question.inputLimits) + 1 : 0;
    if (nextIndex === inputLimits.length || properties.length > 1) return [];
    return [{ properties, question: { ...question, inputLimits: inputLimits[nextIndex] } }];
  }

  /**
   * Stores a proof and removes the questions about the proved properties.
   * @param {number[]} properties the indices of the proved properties
   * @param {number} states the number of states in the proof
   * @param {import("../prove/input_limits.js").InputLimits | null} inputLimits
   */
  recordProof(properties, states, inputLimits) {
    for (const at of properties) {
      this.states[at] = states;
      this.limits[at] = inputLimits ? inputLimits.words : [];
    }
    this.questions = this.questions.filter((propertyQuestion) => propertyQuestion.properties.some((at) => this.states[at] === 0));
  }

  /** Starts the next round with a larger bound, and doubles the expected duration of a question. */
  raiseBound() {
    this.askedCount = 0;
    this.bounds.shift();
    this.lastDuration *= 2;
    if (this.bounds.length === 0) this.questions = [];
  }
}

/**
 * Returns one question for each property that the prover can decide.
 * @param {Subject} subject
 * @param {Campaign} campaign
 * @returns {PropertyQuestion[]}
 */
function createQuestions(subject, campaign) {
  const mistakeWords = new Map(listMistakes().map(({ property: { form }, word }) => [form, word]));
  return campaign.properties.flatMap((property, at) => {
    const mistake = mistakeWords.get(property.form);
    const question = mistake ? createMistakeQuestion([mistake]) : createQuestion(property, campaign, subject).question;
    return question ? [{ properties: [at], question }] : [];
  });
}

/**
 * Combines several questions into one.
 * @param {PropertyQuestion[]} questions
 * @returns {PropertyQuestion}
 */
function joinQuestions(questions) {
  return {
    properties: questions.flatMap(({ properties }) => properties), question: combineQuestions(questions.map(({ question }) => question)),
  };
}
