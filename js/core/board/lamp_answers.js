// Converts answers about lamps to display text. An answer to `lamps` contains the lamps at one instant. From an answer to `trace` with
// `lamps` as its only place, this module computes the text as perceived over the traced time.

import { PerceivedText, hasScannedDisplay } from "../engine/perceived_text.js";
import { DisplayText, joinDisplayText } from "./display_text.js";
import { endOfGroup } from "./face_board.js";
import * as say from "../../words/board.js";

/**
 * @typedef {import("../bench/answers.js").Board} Board
 * @typedef {import("./face.js").Face} Face
 *
 * The display text for each answer about lamps. `error` is an error message, or "". If there is an error, `lines` is empty.
 * @typedef {{ lines: string[], error: string }} DisplayTexts
 */

/**
 * Matches the first line of an answer to `trace` with `lamps` as its only place. Captures the number of further lines, and the lamp marks.
 */
const TRACE_ANSWER = /^trace ran \d+ \w+ lines (\d+) ([.*]+|-)$/;
/** Matches an answer that reports an error. */
const REFUSAL_ANSWER = /^no \d/;

/** Converts answers about lamps to display text, for a board that has a display. */
class LampAnswerReader {
  /**
   * @param {Face} face
   * @param {Board} board
   * @param {string} name the board name, for messages
   */
  constructor(face, board, name) {
    this.name = name;
    const displays = face.groups.filter(({ kind }) => kind === "display");
    this.requiredLampCount = Math.max(...displays.map(endOfGroup));
    this.isScanned = hasScannedDisplay(face);
    this.text = new DisplayText(displays, [...face.lamps].map(([lamp, { text }]) => ({ lamp, text })));
    this.perceivedText = new PerceivedText(face, board.lamps.length);
  }

  /**
   * Returns an error message if the displays need more lamps than an answer contains; otherwise "".
   * @param {string} marks one mark per lamp, `*` if the lamp is on; `-` if the board has no lamps
   * @param {number} line the line number of the answer
   */
  lampCountError(marks, line) {
    const count = marks === "-" ? 0 : marks.length;
    return count < this.requiredLampCount ? say.tooFewLampsMessage(line, count, this.name, this.requiredLampCount) : "";
  }

  /**
   * Converts the answer that starts at an index of `answers` to display text.
   * @param {string[]} answers
   * @param {number} index
   * @returns {{ text: string, error: string, count: number }} `count` is the number of lines in the answer, 0 if the answer is not about
   *   lamps
   */
  readAnswer(answers, index) {
    const makeFailure = (/** @type {string} */ error) => ({ text: "", error, count: 1 });
    const answer = answers[index];
    if (REFUSAL_ANSWER.test(answer)) return makeFailure(say.answerIsRefusalMessage(index + 1, answer));
    const [word, marks = ""] = answer.split(" ");
    if (word === "lamps") {
      const message = this.lampCountError(marks, index + 1) || (this.isScanned ? say.answerShowsInstantMessage(index + 1, this.name) : "");
      return message === "" ? { text: joinDisplayText(this.text.read(marks)), error: message, count: 1 } : makeFailure(message);
    }
    const [, rows, first] = TRACE_ANSWER.exec(answer) || [];
    if (first === undefined) return { text: "", error: "", count: 0 };
    const error = this.lampCountError(first, index + 1);
    if (error !== "") return makeFailure(error);
    const count = 1 + Number(rows);
    if (index + count > answers.length) return makeFailure(say.ENDS_WITHIN_TRACE);
    return { text: joinDisplayText(this.perceivedText.read(answers.slice(index, index + count))), error: "", count };
  }
}

/**
 * Converts all answers about the lamps of a board to display text.
 * @param {Face} face
 * @param {Board} board
 * @param {string} name the board name, for messages
 * @param {string[]} answers
 * @returns {DisplayTexts}
 */
export function convertLampAnswers(face, board, name, answers) {
  if (!face.groups.some(({ kind }) => kind === "display")) return { lines: [], error: say.noDisplayMessage(name) };
  const reader = new LampAnswerReader(face, board, name);
  /** @type {string[]} */
  const lines = [];
  for (let index = 0; index < answers.length;) {
    const { text, error, count } = reader.readAnswer(answers, index);
    if (error !== "") return { lines: [], error };
    if (count > 0) lines.push(text);
    index += Math.max(1, count);
  }
  return { lines, error: lines.length > 0 ? "" : say.NO_LAMPS_SHOWN };
}
