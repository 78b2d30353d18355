// Proves properties on the page. Asks the prover in the WebAssembly module repeatedly, with increasing limits on the number of states, so
// that the page can show progress. Confirms a counterexample by running its test. The page's worker uses this module.
//
//     const calls = { reportStates: async (states) => {}, yieldToMessages: async () => {} };
//     const { judge, errors } = beginProving(engine, texts, 1000000, calls);
//     for (let judged = await judge.judgeNext(); judged; judged = await judge.judgeNext()) ..

import { parseSearchTexts } from "../explore/sliced_search.js";
import { formatNumber } from "../explore/report.js";
import { confirmsCounterexample } from "../testing/confirmation.js";
import { PropertyJudge } from "./property_judge.js";
import { MAX_SETS, listBounds, formatQuestion, readAnswer } from "./question.js";
import * as say from "../../words/prove.js";

/**
 * @typedef {import("./question.js").Answer} Answer
 * @typedef {import("./question.js").Question} Question
 * @typedef {import("../engine/engine.js").Engine} Engine
 * @typedef {import("../explore/sliced_search.js").ExploredTexts} ExploredTexts
 * @typedef {import("../explore/sliced_search.js").SearchSetup} SearchSetup
 * @typedef {import("../testing/test_preparation.js").ProjectTextError} ProjectTextError
 * @typedef {import("./verdicts.js").JudgedProperty} JudgedProperty
 * @typedef {import("./verdicts.js").Verdict} Verdict
 *
 * A property and its verdict, in a message to the page. `line` is the line number in the properties text, or 0 if the property excludes a
 * common mistake.
 * @typedef {{ text: string, line: number, isGoal: boolean, verdict: Verdict }} PropertyVerdict
 *
 * @typedef {object} ProvingCalls
 * @property {(states: number) => Promise<void>} reportStates reports the number of states that the prover has searched so far without
 *   deciding the current question
 * @property {() => Promise<void>} yieldToMessages yields to other tasks
 */

/** Asks the prover questions about a board and its program. */
class ProverQueries {
  /**
   * @param {Engine} engine
   * @param {ExploredTexts} texts
   * @param {number} maxStates the maximum number of states per question
   * @param {ProvingCalls} calls
   */
  constructor(engine, texts, maxStates, calls) {
    this.engine = engine;
    this.texts = { board: texts.boardText, program: texts.programText };
    this.maxStates = maxStates;
    this.calls = calls;
    /** The number of states that the prover has searched so far without deciding the current question. */
    this.searchedStates = 0;
  }

  /**
   * Asks the prover repeatedly with increasing limits on the number of states. Resolves to the first answer that decides the question or,
   * if there is none, to the last answer.
   * @param {Question} question
   * @returns {Promise<Answer>}
   */
  async ask(question) {
    this.searchedStates = 0;
    /** @type {Answer} */
    let answer = { kind: "more" };
    for (const bound of listBounds(this.maxStates)) {
      await this.calls.reportStates(this.searchedStates);
      answer = this.askWithin(question, { maxStates: bound });
      if (answer.kind !== "more") break;
      this.searchedStates = bound;
    }
    return answer;
  }

  /**
   * Asks the prover for a proof by sets of states. Resolves to its answer.
   * @param {Question} question
   */
  async askBySets(question) {
    await this.calls.reportStates(0);
    return this.askWithin(question, { maxStates: 0, sets: MAX_SETS });
  }

  /**
   * Asks the prover once, and returns its answer. Throws an error if the answer is an error or unknown.
   * @param {Question} question
   * @param {import("./question.js").QuestionLimits} limits
   */
  askWithin(question, limits) {
    const line = this.engine.prove(formatQuestion(this.texts, question, limits));
    const answer = readAnswer(line);
    if (!answer) throw new Error(say.proverEnded(line));
    return answer;
  }

  /**
   * Returns, as text, why an answer leaves the question undecided.
   * @param {import("./question.js").NoAnswer} answer
   */
  explainNoAnswer(answer) {
    if (answer.kind === "lost") return say.GAVE_UP;
    if (answer.kind === "more") return say.moreStatesThan(formatNumber(this.searchedStates));
    return say.memoryFullAfter(formatNumber(Math.max(answer.states, this.searchedStates)));
  }
}

/**
 * Parses the texts. Returns the object that decides the properties one after the other. If a text has an error, returns null instead, with
 * the errors in `errors`.
 * @param {Engine} engine
 * @param {ExploredTexts} texts
 * @param {number} maxStates the maximum number of states per question
 * @param {ProvingCalls} calls
 * @returns {{ judge: PropertyJudge | null, errors: ProjectTextError[] }}
 */
export function beginProving(engine, texts, maxStates, calls) {
  const { parsedTexts, errors } = parseSearchTexts(engine, texts, false);
  if (!parsedTexts) return { judge: null, errors };
  const queries = new ProverQueries(engine, texts, maxStates, calls);
  const judge = new PropertyJudge(parsedTexts.subject, parsedTexts.campaign, {
    ask: (question) => queries.ask(question),
    askBySets: (question) => queries.askBySets(question),
    confirm: async ({ isTest, text }, isGoal) => !isTest || confirmsCounterexample(engine, texts, text, isGoal, calls.yieldToMessages),
    explainNoAnswer: (answer) => queries.explainNoAnswer(answer),
    yieldToMessages: calls.yieldToMessages,
  });
  return { judge, errors: [] };
}

/**
 * Returns a property and its verdict as they are sent to the page.
 * @param {JudgedProperty} judged
 * @returns {PropertyVerdict}
 */
export function createPropertyVerdict({ property: { text, line, isGoal }, verdict }) {
  return { text, line, isGoal, verdict };
}
