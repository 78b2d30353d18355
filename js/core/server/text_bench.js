// Checks and assembles the texts of boards and programs with queries to the bench, in temporary sessions in memory.

import { readBoard, parseRefusal } from "../bench/answers.js";
import { readErrors, readWiring } from "../bench/text_check_answers.js";
import { sentText } from "../text/sendable_text.js";
import { ALL_ROMS, findSendingError, assembleText } from "../engine/program_check.js";

/**
 * @typedef {import("../bench/answers.js").Refusal} Refusal
 * @typedef {import("../engine/engine_host.js").EngineHost} Engine
 * @typedef {import("../engine/program_check.js").Program} Program
 *
 * A session with a board: the board text (null for none), the bytes of the session file, and the numbers of the ROMs.
 * @typedef {{ text: string | null, file: Uint8Array, roms: Set<number> }} BoardSession
 */

export class TextBench {
  /** @param {Engine} engine */
  constructor(engine) {
    this.engine = engine;
    this.emptySession = engine.begin();
    this.boardSession = this.beginSession(null);
    /** @type {Program | null} the last assembled program */
    this.program = null;
  }

  /**
   * Creates a session with a board. If the board text is null, or if the bench rejects the text, the board has all ROMs.
   * @param {string | null} text
   * @returns {BoardSession}
   */
  beginSession(text) {
    const file = this.engine.begin();
    const isRejected = text === null || this.engine.serve(file, `wire\n${sentText(text, "#")}.\n`, file).answers.some(parseRefusal);
    if (isRejected) this.engine.serve(file, ALL_ROMS, file);
    const roms = new Set(readBoard(this.engine.ask(file, "board\n").answers).roms.map(({ chip }) => chip));
    return { text, file, roms };
  }

  /**
   * Sets the board for later calls about programs.
   * @param {string | null} text the board text, or null to use a board with all ROMs
   */
  setBoard(text) {
    if (this.boardSession.text !== text) this.boardSession = this.beginSession(text);
  }

  /**
   * Returns the error with which the bench rejects lines; null if the bench accepts the lines.
   * @param {Uint8Array} file the session file; not changed
   * @param {string} lines
   */
  findRefusal(file, lines) {
    return parseRefusal(this.engine.ask(file, lines).answers[0]);
  }

  /**
   * Returns the error in a board text; null if there is none.
   * @param {string} text the result of `sentText`
   */
  findBoardError(text) {
    return readWiring(this.engine.ask(this.emptySession, `wiring\n${text}.\n`).answers[0]);
  }

  /**
   * Returns the errors in the lines of a program.
   * @param {string} text the result of `sentText`
   */
  findLineErrors(text) {
    return readErrors(this.engine.ask(this.emptySession, `errors\n${text}.\n`).answers);
  }

  /**
   * Returns the error with which the bench rejects a program on the current board; null if the bench accepts the program.
   * @param {string} text the result of `sentText`
   */
  findProgramRefusal(text) {
    return this.findRefusal(this.boardSession.file, `asm\n${text}.\n`);
  }

  /**
   * Returns the queries of this bench as callbacks for TextErrorFinder.
   * @returns {import("../text/text_error_finder.js").ErrorQueries}
   */
  createQueries() {
    return {
      findBoardError: async (sentBoard) => this.findBoardError(sentBoard),
      findLineErrors: async (sentProgram) => this.findLineErrors(sentProgram),
      findRefusal: async (sentProgram) => this.findProgramRefusal(sentProgram),
      readMap: async (sentProgram) => this.assemble(sentProgram).map,
      readRomNumbers: async () => this.boardSession.roms,
    };
  }

  /**
   * Returns the answers to `map` for a program; null if the bench rejects the program.
   * @param {string} sentProgram the result of `sentText`
   */
  readMap(sentProgram) {
    if (findSendingError(sentProgram)) return null;
    const { answers } = this.engine.ask(this.emptySession, `map\n${sentProgram}.\n`);
    return parseRefusal(answers[0]) ? null : answers;
  }

  /**
   * Assembles a program. If the text is the same as in the last call, returns the same result again.
   * @param {string} sentProgram the result of `sentText`
   * @returns {Program}
   */
  assemble(sentProgram) {
    if (!this.program || this.program.text !== sentProgram) this.program = assembleText(this.engine, sentProgram);
    return this.program;
  }
}
