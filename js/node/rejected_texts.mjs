// Composes the messages that commands print about rejected texts. A message contains the file name, the line number, the number and meaning of the
// refusal, and the line itself.
import { readFileSync } from "node:fs";
import { readBoard } from "../core/bench/answers.js";
import { readWiring } from "../core/bench/text_check_answers.js";
import { ErrorMessages } from "../core/bench/error_messages.js";
import { assembleText } from "../core/engine/program_check.js";
import { readInstructions } from "../core/help/manual.js";
import { SourceMap } from "../core/machine/source_map.js";
import { findDefinedNames } from "../core/text/assembly.js";
import { createBoardError } from "../core/text/board_error.js";
import { MISSING_ROM, createLineError, findMissingRoms } from "../core/text/program_errors.js";
import { toAsciiComments, sentText } from "../core/text/sendable_text.js";
import { readBoardTables } from "../core/text/text_help.js";
import { readPageData } from "./page_parts.mjs";

/**
 * @typedef {import("../core/engine/engine_host.js").EngineHost} EngineHost
 * @typedef {import("../core/testing/test_preparation.js").ProjectTextError} ProjectTextError
 * @typedef {import("../core/text/sendable_text.js").TextError} TextError
 * @typedef {import("./input_texts.mjs").InputText} InputText
 *
 * The texts that the bench may have rejected, by kind.
 * @typedef {{ board?: Omit<InputText, "encoding">, program?: Omit<InputText, "encoding"> }} CheckedTexts
 */

/** The maximum number of errors in a message. */
const MAX_ERRORS = 20;
/** The maximum number of characters of a line that a message shows. */
export const MAX_SHOWN_LENGTH = 120;
/** The error number of the assembler for a line whose form it does not know. */
export const UNKNOWN_FORM = 30;
/** Matches a line in the syntax of another assembler. */
const OTHER_SYNTAX = new RegExp("[ \\t,][0-7]P([ \\t,]|$)|[0-9]<|[ \\t,][0-9][0-9A-F]*H([ \\t,]|$)|[ \\t,][$][0-9A-F]|^[A-Z_][A-Z0-9_]*,|"
  + "[ \\t]/|[ \\t](TZ|TN|CZ|CN|AZ|AN)[ \\t,]");

/** @type {ErrorMessages | null} */
let errorMessages = null;
/** @type {ReturnType<typeof readBoardTables> | null} */
let tables = null;
/** @type {ReturnType<typeof readInstructions> | null} */
let instructions = null;

/** Returns the manual's tables about boards, and the instructions that it describes. */
function readManual() {
  if (!tables || !instructions) {
    const { manual } = readPageData();
    [tables, instructions] = [readBoardTables(manual), readInstructions(manual)];
  }
  return { tables, instructions };
}

/**
 * Returns the meaning of a refusal.
 * @param {number} number
 */
export function describeRefusal(number) {
  if (!errorMessages) {
    const rows = readFileSync(new URL("../../tools/lib/refusals.txt", import.meta.url), "utf8").split("\n");
    errorMessages = new ErrorMessages(Object.fromEntries(rows.filter((row) => /^\d/.test(row)).map((row) => [row.slice(0, 2), row.slice(3)])));
  }
  return errorMessages.refusalMeaning(number);
}

/**
 * Returns a hint if a line is in the syntax of another assembler, otherwise "".
 * @param {string} line
 */
export function findSpellingHint(line) {
  return OTHER_SYNTAX.test(line.replace(/;.*/, "").toUpperCase()) ? "; mcs4 import takes programs in Intel's and AS's spelling" : "";
}

/** Composes the messages about rejected texts. Checks the texts again with an engine to find the details. */
export class RejectedTexts {
  /**
   * @param {EngineHost} engine
   * @param {CheckedTexts} givenTexts
   */
  constructor(engine, givenTexts) {
    this.engine = engine;
    this.givenTexts = givenTexts;
  }

  /**
   * Returns the error in the text of a board, with its line and its message. Returns null if the bench does not report a line.
   * @param {string} text
   */
  findBoardError(text) {
    const { engine } = this;
    const error = readWiring(engine.ask(engine.begin(), `wiring\n${sentText(text, "#")}.\n`).answers[0]);
    return error && error.line > 0 ? createBoardError(toAsciiComments(text, "#"), error, readManual().tables, describeRefusal) : null;
  }

  /**
   * Returns the error for the first program line whose bytes belong to a ROM chip that the board does not have. Returns null if there is no such
   * line.
   * @param {string} text
   */
  findLineWithoutRom(text) {
    const { engine, givenTexts: { board } } = this;
    if (!board) return null;
    const state = engine.begin();
    engine.serve(state, `wire\n${sentText(board.text, "#")}.\n`, state);
    const roms = new Set(readBoard(engine.ask(state, "board\n").answers).roms.map(({ chip }) => chip));
    const sentSource = sentText(text, ";");
    const [error = null] = findMissingRoms(sentSource.split("\n"), new SourceMap(assembleText(engine, sentSource).map, sentSource), roms)
      .sort((first, second) => first.line - second.line);
    return error;
  }

  /**
   * Returns the error in a text, with its line and its message. Returns null if the line is not known.
   * @param {ProjectTextError} error
   * @param {string} text
   * @returns {TextError | null}
   */
  findError({ text: kind, line, number }, text) {
    if (kind === "board") return line > 0 ? null : this.findBoardError(text);
    if (number === MISSING_ROM) return this.findLineWithoutRom(text);
    if (line === 0 || number < UNKNOWN_FORM) return null;
    const lines = toAsciiComments(text, ";").split("\n");
    const knownWords = { instructions: readManual().instructions, names: findDefinedNames(lines) };
    return createLineError(lines, { line, number }, knownWords, describeRefusal);
  }

  /**
   * Returns the message about an error, followed by the line with the error if this line is known.
   * @param {ProjectTextError} error
   */
  formatError(error) {
    const { text: kind, file, line, number, words } = error;
    if (kind === "tests") return `${file}:${line}: ${words}`;
    const checkedText = kind === "properties" ? undefined : this.givenTexts[kind];
    if (!checkedText) throw new Error(`there is no text of the kind ${kind}`);
    const { name, text, linesBefore } = checkedText;
    const locatedError = number > 0 ? this.findError(error, text) : null;
    const lineNumber = line || (locatedError ? locatedError.line : 0);
    const shownLines = lineNumber > 0 && number > 0 ? [text.split("\n")[lineNumber - 1]] : [];
    const hint = number === UNKNOWN_FORM && shownLines.length > 0 ? findSpellingHint(shownLines[0]) : "";
    const reason = `${number > 0 ? `no ${number}: ` : ""}${words || (locatedError ? locatedError.words : describeRefusal(number))}${hint}`;
    const location = lineNumber > 0 ? `line ${lineNumber + linesBefore}: ` : "";
    return [`${name}: ${location}${reason}`, ...shownLines.map((shownLine) => `    ${shownLine.slice(0, MAX_SHOWN_LENGTH)}`)].join("\n");
  }

  /**
   * Returns the messages about the first MAX_ERRORS errors, and the number of further errors.
   * @param {ProjectTextError[]} errors
   */
  formatMessage(errors) {
    const moreLines = errors.length > MAX_ERRORS ? [`and ${errors.length - MAX_ERRORS} more`] : [];
    return [...errors.slice(0, MAX_ERRORS).map((error) => this.formatError(error)), ...moreLines].join("\n");
  }
}
