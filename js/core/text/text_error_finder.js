// Finds the errors in the texts of a board and a program, with their positions and messages. The page's editors and the language server use
// this module.

import { findFaceErrors } from "../board/face.js";
import { SourceMap } from "../machine/source_map.js";
import { createBoardError } from "./board_error.js";
import { MISSING_ROM, findProgramErrors, findMissingRoms } from "./program_errors.js";
import { toAsciiComments, findSendingErrors, sentText } from "./sendable_text.js";

/**
 * @typedef {import("../bench/answers.js").Refusal} Refusal
 * @typedef {import("../help/manual.js").Instruction} Instruction
 * @typedef {import("./program_errors.js").TextErrors} TextErrors
 * @typedef {import("./sendable_text.js").TextError} TextError
 *
 * The callbacks that query the bench. `sentBoard` and `sentProgram` are texts in the form that is sent to the bench.
 * @typedef {object} ErrorQueries
 * @property {(sentBoard: string) => Promise<import("../bench/text_check_answers.js").BoardError | null>} findBoardError
 *   resolves to the error in a board text; null if it has none
 * @property {(sentProgram: string) => Promise<import("../bench/text_check_answers.js").LineError[]>} findLineErrors
 *   resolves to the errors in the lines of a program
 * @property {(sentProgram: string) => Promise<Refusal | null>} findRefusal resolves to the refusal if the bench rejects a program for the
 *   current board; otherwise to null
 * @property {(sentProgram: string) => Promise<string[]>} readMap resolves to the `map` answers for a program
 * @property {() => Promise<Set<number>>} readRomNumbers resolves to the numbers of the ROMs on the board
 */

/** The highest refusal number for errors in board and program texts. Refusals with higher numbers have other causes. */
const LAST_TEXT_REFUSAL = 42;

/**
 * Returns the refusal if its cause is an error in a board or program text; otherwise null.
 * @param {Refusal | null} refusal
 */
export function toTextRefusal(refusal) {
  return refusal && refusal.number <= LAST_TEXT_REFUSAL ? refusal : null;
}

/** Finds the errors in programs and board texts. */
export class TextErrorFinder {
  /**
   * @param {ErrorQueries} queries
   * @param {{ instructions: Map<string, Instruction>, tables: Map<string, Map<string, string>> }} manual the instructions, and the
   *   descriptions of board text values, by table and key
   * @param {(number: number) => string} messageFor returns the message of a refusal
   */
  constructor(queries, { instructions, tables }, messageFor) {
    this.queries = queries;
    this.instructions = instructions;
    this.tables = tables;
    this.messageFor = messageFor;
  }

  /**
   * Resolves to the errors in a program; undefined if the result is no longer wanted when the bench has answered.
   * @param {string} text
   * @param {() => boolean} isWanted returns whether the result is still wanted
   * @returns {Promise<TextErrors | undefined>}
   */
  async findInProgram(text, isWanted) {
    const result = await findProgramErrors(text, this.instructions, this.messageFor, this.queries);
    if (!isWanted()) return undefined;
    if (!result || !result.generalRefusal || result.generalRefusal.number !== MISSING_ROM || result.errors.length > 0) return result;
    const sentProgram = sentText(text, ";");
    const map = new SourceMap(await this.queries.readMap(sentProgram), sentProgram);
    return { ...result, errors: findMissingRoms(toAsciiComments(text, ";").split("\n"), map, await this.queries.readRomNumbers()) };
  }

  /**
   * Resolves to the errors in a board text; undefined if the result is no longer wanted when the bench has answered.
   * @param {string} text
   * @param {() => boolean} isWanted returns whether the result is still wanted
   * @returns {Promise<TextErrors | undefined>}
   */
  async findInBoard(text, isWanted) {
    const textErrors = findSendingErrors(text, "#");
    if (textErrors.length > 0) return { errors: textErrors, isComplete: true, generalRefusal: null };
    const error = await this.queries.findBoardError(sentText(text, "#"));
    if (!isWanted()) return undefined;
    if (!error) return { errors: [], isComplete: true, generalRefusal: null };
    const boardError = createBoardError(toAsciiComments(text, "#"), error, this.tables, this.messageFor);
    return { errors: [boardError], isComplete: false, generalRefusal: null };
  }
}

/**
 * Returns the errors in the front-panel comments of a board text. The bench accepts a board text with such errors.
 * @param {string} text
 * @returns {TextError[]}
 */
export function findFrontPanelErrors(text) {
  const lines = text.split("\n");
  return findFaceErrors(text).map(({ line, message: words }) => ({ number: 0, line, from: 0, to: (lines[line - 1] || "").length, words }));
}
