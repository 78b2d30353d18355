// The prompt of `mcs4 new` and `mcs4 open`. A callback sends the bench lines to the bench. The prompt also reads board and program texts
// from files, prints help, completes lines, and explains why the bench rejects a line.
//
//     const prompt = new SessionPrompt(callbacks);
//     await prompt.enterLine("press 3 9"); prompt.label; prompt.isEnded; await prompt.complete("pr");

import { readBoard, parseRefusal } from "../bench/answers.js";
import { findLineError } from "../bench/line_forms.js";
import { opensText, stripCarriageReturn } from "../bench/inputs.js";
import { findMatchingLines, readLineForms, cellText, sectionRows } from "../help/manual.js";
import { findSendingErrors, sentText } from "../text/sendable_text.js";
import { FILE_WORDS, completeLine } from "./line_completion.js";
import { SourceCommand } from "./source_command.js";
import { LINES_BY_GROUPS, unknownCommandMessage } from "../../words/lines.js";
import { NO_KEYS, noRamAtMessage } from "../../words/prompt.js";
import * as say from "../../words/session_prompt.js";

/**
 * @typedef {import("../bench/answers.js").Refusal} Refusal
 * @typedef {import("../help/manual.js").ManualSection} ManualSection
 * @typedef {import("./line_completion.js").Completion} Completion
 *
 * A command that is followed by the lines of a board or program text.
 * @typedef {"wire" | "asm" | "map" | "wiring" | "errors"} TextWord
 *
 * An error in such a text: the line number from 1 (0 for none), and the message.
 * @typedef {{ line: number, words: string }} TextError
 *
 * A text whose last line (a dot) has not been entered yet: the command that starts the text, such as `wire`, and the lines after this
 * command. `commandLine` is the line number of the command in a `source` file, or 0 if the command was typed.
 * @typedef {{ word: TextWord, lines: string[], commandLine: number }} UnfinishedText
 */

/**
 * The callbacks of the prompt. The completion of lines uses only `files` and `ask`.
 * @typedef {object} SessionPromptCallbacks
 * @property {(input: string) => Promise<string>} serve Sends an input (a line, or the lines of a text) to the bench and prints the answers.
 *   Resolves to the first answer line, or "".
 * @property {(line: string) => Promise<string[]>} ask Resolves to the answers to a line. Does not print them.
 * @property {(words: string) => void} print Prints a message on standard output.
 * @property {(words: string) => void} printError Prints a message on standard error.
 * @property {(name: string) => string} read Returns the text of a file; throws an error with the reason if it cannot be read.
 * @property {(prefix: string) => string[]} files Returns the file names that start with a prefix.
 * @property {(word: TextWord, text: string, board: string) => Promise<TextError[]>} findErrors Resolves to all errors in a rejected text.
 *   For a program, `board` is the board text.
 * @property {(number: number) => string} messageOf Returns the message for an error number of the bench.
 * @property {() => ManualSection[]} manual Returns the sections of the manual, with their tables.
 */

/** The characters that start a comment, by the command for the text. */
const COMMENT_MARKS = /** @type {const} */ ({ wire: "#", asm: ";", map: ";", wiring: "#", errors: ";" });
/** The maximum number of characters of a source line in an error message. */
const MAX_SHOWN_CHARACTERS = 120;
/** The error numbers of the bench for which this prompt has its own messages. */
const NO_KEY_ERROR = 41;
const NO_ROM_ERROR = 42;
const NO_RAM_ERROR = 43;
const NO_RUN_ERROR = 44;
/** The first and the last error number of the bench for errors in board and program texts. */
const TEXT_ERROR_NUMBERS = { first: 12, last: 42 };

/** The error that is thrown for a line that the prompt itself rejects. */
class RejectedLine extends Error {}

export class SessionPrompt {
  /** @param {SessionPromptCallbacks} callbacks */
  constructor(callbacks) {
    this.callbacks = callbacks;
    this.isEnded = false;
    /** @type {UnfinishedText | null} the text that the user is entering */
    this.openText = null;
    this.sourceCommand = new SourceCommand(this, callbacks);
  }

  /** The prompt text before a line. */
  get label() {
    return `${this.openText ? this.openText.word : "mcs4"}> `;
  }

  /** Returns false, because this prompt has nothing to interrupt. */
  interrupt() {
    return false;
  }

  /** Discards the unfinished text. Returns a message about the text; "" if there is none. */
  discardUnfinished() {
    const { openText } = this;
    this.openText = null;
    return openText ? say.textDropped(openText.word) : "";
  }

  /** The lines of the unfinished text, which the caller sends to the bench at the end of the input; "" if there is none. */
  get unfinishedText() {
    return this.openText ? [this.openText.word, ...this.openText.lines].map((line) => `${line}\n`).join("") : "";
  }

  /**
   * Executes a line. If the line is rejected, prints the reason and resolves to false.
   * @param {string} input the line, with or without a carriage return
   */
  async enterLine(input) {
    const line = stripCarriageReturn(input);
    try {
      return await (this.openText ? this.addTextLine(line, this.openText) : this.handleLine(line));
    } catch (error) {
      if (!(error instanceof RejectedLine)) throw error;
      this.sourceCommand.printError(error.message);
      return false;
    }
  }

  /**
   * Adds a line to the unfinished text. If the line is a dot, sends the text to the bench. Resolves to false if the bench rejects the text.
   * @param {string} line
   * @param {UnfinishedText} openText
   */
  async addTextLine(line, openText) {
    if (line !== ".") {
      openText.lines.push(line);
      return true;
    }
    this.openText = null;
    const { word, lines, commandLine } = openText;
    const text = lines.map((textLine) => `${textLine}\n`).join("");
    const { file } = this.sourceCommand;
    const place = file ? { name: file.name, linesBefore: commandLine } : { name: "", linesBefore: 0 };
    return this.serveText(word, text, text, place);
  }

  /**
   * Executes a line that is not part of a text. Resolves to false if the bench rejects the line. Throws RejectedLine if the prompt itself
   * rejects the line.
   * @param {string} line
   * @returns {Promise<boolean>}
   */
  async handleLine(line) {
    const [, word = "", argumentText = ""] = /^[ \t]*(\S+)[ \t]*(.*?)[ \t]*$/.exec(line) || [];
    if (word === "") return line.length === 0 || this.serve(line);
    if ((word === "quit" || word === "exit") && argumentText === "") {
      this.isEnded = true;
      return true;
    }
    if (word === "help") return this.printHelp(argumentText);
    if (word === "source") return this.serveSourceFile(argumentText);
    if (opensText(line)) {
      const { file } = this.sourceCommand;
      this.openText = { word: /** @type {TextWord} */ (word), lines: [], commandLine: file ? file.lineNumber : 0 };
      return true;
    }
    if (FILE_WORDS.includes(word)) return this.serveFile(/** @type {TextWord} */ (word), argumentText);
    return this.serve(line);
  }

  /**
   * Sends a line to the bench. If the bench rejects the line, prints the reason and resolves to false.
   * @param {string} line
   */
  async serve(line) {
    const refusal = parseRefusal(await this.callbacks.serve(`${line}\n`));
    if (!refusal) return true;
    this.sourceCommand.printError(await this.explainRefusal(line, refusal));
    return false;
  }

  // --- texts ---

  /**
   * Sends a board or program text from a file to the bench, without its comments. Resolves to false if the text is rejected.
   * @param {TextWord} word the command for the text
   * @param {string} name the file name
   */
  async serveFile(word, name) {
    const text = this.read(name);
    const mark = COMMENT_MARKS[word];
    const textErrors = findSendingErrors(text, mark);
    if (textErrors.length > 0) return this.reportTextErrors(textErrors, text, { name, linesBefore: 0 });
    return this.serveText(word, sentText(text, mark), text, { name, linesBefore: 0 });
  }

  /**
   * Sends a text to the bench, and prints the errors in the text. Resolves to false if the bench rejects the text.
   * @param {TextWord} word the command for the text
   * @param {string} textToSend the text as sent to the bench
   * @param {string} text the text with its comments
   * @param {{ name: string, linesBefore: number }} place the file name ("" for none), and the number of lines before the text
   */
  async serveText(word, textToSend, text, place) {
    const board = word === "asm" ? await this.readBoardText() : "";
    const firstAnswer = await this.callbacks.serve(`${word}\n${textToSend}.\n`);
    const refusal = parseRefusal(firstAnswer);
    if (refusal) return this.reportTextErrors(await this.findTextErrors(word, text, board, refusal), text, place);
    if (/^errors [1-9]/.test(firstAnswer)) this.reportTextErrors(await this.callbacks.findErrors(word, text, board), text, place);
    return true;
  }

  /**
   * Resolves to the errors in a rejected text.
   * @param {TextWord} word the command for the text
   * @param {string} text
   * @param {string} board the board text if `text` is a program for ROM, otherwise ""
   * @param {Refusal} refusal
   * @returns {Promise<TextError[]>}
   */
  async findTextErrors(word, text, board, { number, line }) {
    const isTextRefusal = number >= TEXT_ERROR_NUMBERS.first && number <= TEXT_ERROR_NUMBERS.last;
    const errors = isTextRefusal ? await this.callbacks.findErrors(word, text, board) : [];
    // For a board, the bench reports the line of the table header, but the error can be in a later line of the table.
    const isLineConfirmed = line === 0 || COMMENT_MARKS[word] === "#" || errors.some((error) => error.line === line);
    return isLineConfirmed && errors.length > 0 ? errors : [{ line, words: this.callbacks.messageOf(number) }];
  }

  /**
   * Prints errors, each with its source line. Returns false.
   * @param {TextError[]} errors
   * @param {string} text
   * @param {{ name: string, linesBefore: number }} place
   */
  reportTextErrors(errors, text, { name, linesBefore }) {
    const lines = text.split("\n");
    this.callbacks.printError(errors.flatMap(({ line, words }) => {
      const sourceText = line > 0 ? [`    ${(lines[line - 1] || "").slice(0, MAX_SHOWN_CHARACTERS)}`] : [];
      return [say.errorInText(name, line > 0 ? line + linesBefore : 0, words), ...sourceText];
    }).join("\n"));
    return false;
  }

  /** Resolves to the text of the current board. */
  async readBoardText() {
    const [, ...lines] = await this.callbacks.ask("board");
    return lines.map((line) => `${line}\n`).join("");
  }

  // --- files ---

  /**
   * Returns the text of a file. Throws RejectedLine if the file cannot be read.
   * @param {string} name
   */
  read(name) {
    try {
      return this.callbacks.read(name);
    } catch (error) {
      throw new RejectedLine(error instanceof Error ? error.message : String(error));
    }
  }

  /**
   * Executes the lines of a file. Resolves to false if a line is rejected. Throws RejectedLine if the file cannot be executed.
   * @param {string} name
   */
  async serveSourceFile(name) {
    try {
      return await this.sourceCommand.serve(name);
    } catch (error) {
      throw new RejectedLine(error instanceof Error ? error.message : String(error));
    }
  }

  // --- explanations of errors ---

  /**
   * Resolves to a message about why the bench rejected a line.
   * @param {string} line
   * @param {Refusal} refusal
   */
  async explainRefusal(line, { number }) {
    const lineError = findLineError(line);
    if (lineError && lineError.number === number) return lineError.message;
    const [word, ...argumentWords] = line.trim().split(/[ \t]+/);
    if (number === NO_KEY_ERROR) {
      const { rows, columns } = readBoard(await this.callbacks.ask("board"));
      return rows === 0 ? NO_KEYS : say.noKeyMessage(argumentWords.join(" "), rows - 1, columns - 1);
    }
    if (number === NO_ROM_ERROR) return say.noRomAtMessage(argumentWords[0]);
    if (number === NO_RAM_ERROR) return noRamAtMessage(word === "poke" ? argumentWords[0] : argumentWords.join(" "));
    return number === NO_RUN_ERROR ? say.invalidRunLength(argumentWords[0]) : this.callbacks.messageOf(number);
  }

  // --- help ---

  /**
   * Prints the description of a topic, or the list of all lines. Returns true. Throws RejectedLine if the topic is unknown.
   * @param {string} topic the first word of a line, `places` for the names in `poke` lines, or an error number; or "" to list all lines
   */
  printHelp(topic) {
    const [word = ""] = topic.split(/[ \t]+/);
    const helpText = word === "" ? listAllLines() : this.describeTopic(word);
    if (helpText === "") throw new RejectedLine(unknownCommandMessage(word, []));
    this.callbacks.print(helpText);
    return true;
  }

  /**
   * Returns the description of a topic; "" for an unknown topic.
   * @param {string} word
   */
  describeTopic(word) {
    if (/^\d\d$/.test(word)) return `no ${word}: ${this.callbacks.messageOf(Number(word))}`;
    const manual = this.callbacks.manual();
    const places = sectionRows(manual, say.PLACES_TITLE).map((row) => `  ${row.map(cellText).join(", ").replace(", ", ": ")}`);
    if (word === "places") return places.join("\n");
    const promptLines = say.PROMPT_LINES.filter(([form]) => form.split(/[ ,]+/).includes(word))
      .map(([form, effect]) => `${form}: ${effect}`);
    const lines = findMatchingLines(readLineForms(manual), `${word} `).map(({ form, effect }) => `${form}: ${effect}`);
    return [...lines, ...(word === "poke" ? places : []), ...promptLines].join("\n");
  }

  // --- completion ---

  /**
   * Resolves to the completions of a line.
   * @param {string} line the line up to the cursor
   * @returns {Promise<Completion>}
   */
  async complete(line) {
    // Inside a text, the tab key inserts a tab.
    return this.openText ? [["\t"], ""] : completeLine(line, this.callbacks);
  }
}

/** Returns the list of all lines that the user can type, with descriptions. */
function listAllLines() {
  const groups = [...LINES_BY_GROUPS, { title: say.PROMPT_LINES_TITLE, lines: say.PROMPT_LINES }];
  const groupTexts = groups.map(({ title, lines }) => (
    `${title}\n${lines.map(([form, effect]) => `  ${form.padEnd(24)} ${effect}`).join("\n")}`));
  return [...groupTexts, say.PROMPT_KEYS].join("\n");
}
