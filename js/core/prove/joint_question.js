// A question that combines several questions, so that one search can answer all of them. It is asked once for all inputs and, if necessary,
// once for each set of limits on the inputs.

import { combineQuestions } from "./question.js";

/**
 * @typedef {import("./input_limits.js").InputLimits} InputLimits
 * @typedef {import("./question.js").Answer} Answer
 * @typedef {import("./question.js").Question} Question
 */

export class JointQuestion {
  /**
   * @param {Question[]} questions
   * @param {Set<Answer["kind"]>} finalKinds the kinds of answers to the combined question that also apply to each single question
   * @param {(question: Question) => Promise<Answer>} ask asks the prover
   */
  constructor(questions, finalKinds, ask) {
    this.isSingle = questions.length === 1;
    this.question = combineQuestions(questions);
    this.finalKinds = finalKinds;
    this.ask = ask;
    /** @type {Map<InputLimits | null, Answer>} the answers so far, by the limits on the inputs */
    this.answers = new Map();
  }

  /**
   * Returns whether the answer to the combined question also applies to each single question.
   * @param {InputLimits | null} inputLimits
   */
  hasFinalAnswer(inputLimits) {
    const answer = this.answers.get(inputLimits);
    return answer !== undefined && (this.isSingle || this.finalKinds.has(answer.kind));
  }

  /**
   * Resolves to the prover's answer to one of the questions. First asks the combined question, unless its answer is already known. If the
   * answer to the combined question does not apply to each single question, asks the single question. For a question with limits on the
   * inputs, skips the combined question unless its answer without limits applies to each single question.
   * @param {Question} question the single question
   */
  async askAbout(question) {
    const { inputLimits } = question;
    if (inputLimits && !this.hasFinalAnswer(null)) return this.ask(question);
    const answer = this.answers.get(inputLimits) || await this.ask({ ...this.question, inputLimits });
    this.answers.set(inputLimits, answer);
    return this.hasFinalAnswer(inputLimits) ? answer : this.ask(question);
  }
}
