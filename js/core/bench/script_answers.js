// Assigns the answers of a session to the inputs of a script. Reports an error if an answer cannot belong to its input.

import { ANSWER_FORMATS } from "./answer_table.js";
import { parseRefusal } from "./answers.js";
import { answerLength, maxAnswerLines, opensText, readNumberedInputs } from "./inputs.js";
import * as say from "../../words/bench.js";

/**
 * @typedef {import("./inputs.js").Input} Input
 *
 * An input, its line number from 1, and the first line of its answer ("" if it has no answer).
 * @typedef {{ input: Input, lineNumber: number, answer: string }} AnsweredInput
 *
 * The inputs of a script with their answers. `message` is an error message if the answers do not fit the inputs, otherwise "".
 * @typedef {{ inputs: AnsweredInput[], message: string }} AnsweredScript
 */

const SESSION_ANSWER = /^session (\d+)$/;

/**
 * Returns whether an answer line can be the first line of the answer to an input.
 * @param {Input} input
 * @param {string} answer
 */
function canBeginAnswer({ kind, line }, answer) {
  const refusal = parseRefusal(answer);
  if (refusal) return refusal.line === 0 || opensText(line);
  const format = ANSWER_FORMATS.get(kind);
  return format !== undefined && format.first.test(answer);
}

/**
 * Returns the number of lines in the complete answer to an input. If the first line states a count, the number includes lines that are
 * missing at the end of `answers`.
 * @param {Input} input
 * @param {string[]} answers
 * @param {number} from the index of the answer's first line
 */
function completeAnswerLength(input, answers, from) {
  const format = ANSWER_FORMATS.get(input.kind);
  if (!format || !format.continuation || parseRefusal(answers[from])) return 1;
  return format.count === "all" || format.count === "list" ? answerLength(input, answers, from)
    : maxAnswerLines(input, answers[from], format.count);
}

/**
 * Checks the lines of an answer after its first line. Returns the index of the first of these lines that has a wrong format; -1 if there is
 * none.
 * @param {Input} input
 * @param {string[]} answers
 * @param {number} from the index of the answer's first line
 * @param {number} end the index after the answer's last line
 */
function findInvalidLine(input, answers, from, end) {
  const format = ANSWER_FORMATS.get(input.kind);
  const continuationPattern = format && format.continuation;
  for (let index = from + 1; index < Math.min(end, answers.length); index++) {
    if (!continuationPattern || !continuationPattern.test(answers[index])) return index;
  }
  return -1;
}

/** Assigns answers to inputs, one input at a time. */
class AnswerMatcher {
  /** @param {string[]} answers */
  constructor(answers) {
    this.answers = answers;
    /** The number of commands that the session had accepted up to the current answer. */
    this.commandCount = Number((SESSION_ANSWER.exec(answers[0]) || ["", "0"])[1]);
    /** The index of the next answer line. */
    this.nextIndex = 1;
    /** An error message if the answers do not fit the inputs, otherwise "". */
    this.message = "";
    /** True if the last answer is incomplete. */
    this.isIncomplete = false;
  }

  /** True if the matcher reads no more answers, because of an error or the end of the answers. */
  get isDone() {
    return this.message !== "" || this.isIncomplete || this.nextIndex >= this.answers.length;
  }

  /**
   * Reads the answer to the next input. Returns the first line of the answer; "" if the input has no complete and valid answer.
   * @param {Input} input
   * @param {number} line the input's line number
   */
  takeAnswer(input, line) {
    if (this.isDone) return "";
    const { answers, nextIndex: start } = this;
    const firstLine = answers[start];
    const messageAt = (/** @type {number} */ index) => say.noAnswerMessage(index + 1, answers[index], line, input.line);
    const [word, count] = firstLine.split(" ");
    if (!canBeginAnswer(input, firstLine)) this.message = messageAt(start);
    else if (word === "ok" && Number(count) !== this.commandCount + 1) {
      this.message = say.wrongCommandCountMessage(messageAt(start), this.commandCount);
    }
    if (this.message !== "") return "";
    if (word === "ok") this.commandCount += 1;
    const end = start + completeAnswerLength(input, answers, start);
    const invalidLine = findInvalidLine(input, answers, start, end);
    if (invalidLine >= 0) this.message = messageAt(invalidLine);
    this.isIncomplete = end > answers.length;
    this.nextIndex = end;
    return invalidLine >= 0 || this.isIncomplete ? "" : firstLine;
  }
}

/**
 * Finds the answers to the inputs of a script. The first answer must be `session N`. If it is instead a refusal of the session, no input
 * has an answer. Each `ok` must have the next command number.
 * @param {string} script
 * @param {string[]} answers
 * @returns {AnsweredScript}
 */
export function matchScriptAnswers(script, answers) {
  const inputs = readNumberedInputs(script);
  const unansweredInputs = inputs.map((numberedInput) => ({ ...numberedInput, answer: "" }));
  if (answers.length > 0 && parseRefusal(answers[0])) return { inputs: unansweredInputs, message: "" };
  if (answers.length === 0 || !SESSION_ANSWER.test(answers[0])) return { inputs: unansweredInputs, message: say.SESSION_LINE_MISSING };
  const matcher = new AnswerMatcher(answers);
  const answeredInputs = inputs.map(({ input, lineNumber }) => ({ input, lineNumber, answer: matcher.takeAnswer(input, lineNumber) }));
  const { message, isDone, nextIndex } = matcher;
  return { inputs: answeredInputs, message: message || (isDone ? "" : say.extraAnswerMessage(nextIndex + 1, answers[nextIndex])) };
}
