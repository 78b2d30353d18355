// Describes the error that the bench reports for a board text. The bench names a table and a key. To find their positions, this module uses
// the parser of board texts. The valid values of each key come from the manual.

import { PART_KEYS, SIGNAL_LINE_NAMES, MAX_PARTS, MAX_COLUMNS, BITS_PER_CHIP, VALUE_RANGES, signalLines } from "../bench/board_form.js";
import { findSimilarWords, formatSuggestion } from "./similar_words.js";
import { collectParts, readBoardText } from "./board_reader.js";
import { createErrorAt } from "./sendable_text.js";
import * as say from "../../words/text.js";

/**
 * @typedef {import("../bench/text_check_answers.js").BoardError} BoardError
 * @typedef {import("./board_reader.js").BoardText} BoardText
 * @typedef {import("./board_reader.js").Entry} Entry
 * @typedef {import("./board_reader.js").Key} Key
 * @typedef {import("./board_reader.js").Value} Value
 * @typedef {import("./sendable_text.js").TextError} TextError
 *
 * The table (`entry`) and the key with an error. `entry` is null if the text has no such table, `key` if it has no such key.
 * @typedef {{ entry: Entry | null, key: Key | null }} WrongPart
 */

/** The numbers of the refusals for errors in board texts. */
const NOT_TOML = 20;
const UNKNOWN_KEY = 21;
const MISSING_KEY = 22;
const BAD_VALUE = 23;
const DUPLICATE_PART = 24;
const MISSING_LINE = 25;
const WRONG_DIRECTION = 26;
const TOO_MANY_PARTS = 27;
/** The keys whose values are names of signal lines. */
const LINE_KEYS = ["clock", "data", "line", "columns"];

/**
 * Returns the header line of a table.
 * @param {string} kind
 */
const formatHeader = (kind) => (kind === "keys" ? "[keys]" : `[[${kind}]]`);

/** Finds the position of an error in a board text, and composes the message. */
class BoardErrorText {
  /**
   * @param {BoardText} text
   * @param {BoardError} error
   * @param {Map<string, Map<string, string>>} tables the manual's descriptions of the values, by table and key
   * @param {(number: number) => string} messageFor returns the message of a refusal
   */
  constructor(text, error, tables, messageFor) {
    this.text = text;
    this.error = error;
    this.tables = tables;
    this.messageFor = messageFor;
    this.parts = collectParts(text.entries);
    this.lines = new Map(signalLines(this.parts).map((line) => [line.name, line]));
  }

  /** All tables of the same kind as the table with the error, such as all `[[rom]]` tables. */
  get entries() {
    const { section } = this.error;
    return this.text.entries.filter(({ table }) => table.replace(/[[\]]/g, "") === section);
  }

  /** @returns {WrongPart} the table and key that contain the error */
  findWrongPart() {
    const { section, index, key: name } = this.error;
    const findKey = (/** @type {Key[]} */ keys) => keys.find((candidate) => candidate.name === name) || null;
    if (section === "") {
      const entry = this.text.entries.find(({ table }) => table.replace(/[[\]]/g, "") === name) || null;
      return { entry, key: findKey(this.text.keys) };
    }
    const entry = this.entries[Math.max(0, index - 1)] || null;
    if (entry) return { entry, key: findKey(entry.keys) };
    return { entry: null, key: this.text.keys.find((candidate) => candidate.name === section) || null };
  }

  /**
   * Returns the error with its position and message.
   * @returns {TextError}
   */
  createError() {
    const { number } = this.error;
    if (number === NOT_TOML) return this.createTomlError();
    const { entry, key } = this.findWrongPart();
    if (number === UNKNOWN_KEY) return this.createUnknownKeyError(entry, key);
    const value = key && number !== MISSING_KEY ? this.findWrongValue(key) : null;
    const message = this.formatMessage(entry, key, value);
    const range = value || entry;
    return range ? createErrorAt(number, range, message) : this.createWholeLineError(message);
  }

  /** Returns the error in a board text that is not valid TOML: a syntax error, or a key that occurs twice in a table. */
  createTomlError() {
    const { number, line } = this.error;
    const syntaxError = this.text.errors.find((candidate) => candidate.line === line);
    if (syntaxError) return syntaxError;
    for (const keys of [this.text.keys, ...this.text.entries.map((entry) => entry.keys)]) {
      const repeatedKey = keys.find((key) => key.line === line);
      const first = keys.find(({ name }) => repeatedKey && name === repeatedKey.name);
      if (repeatedKey && first && first !== repeatedKey) {
        return createErrorAt(number, repeatedKey, say.alreadyOnLine(repeatedKey.name, first.line));
      }
    }
    return this.createWholeLineError(this.messageFor(number));
  }

  /**
   * Returns the value of a key. If the value is the array of columns, returns its element with the error.
   * @param {Key} key
   * @returns {Value}
   */
  findWrongValue({ name, value }) {
    const { number } = this.error;
    if (name !== "columns" || !Array.isArray(value.inner)) return value;
    return value.inner.find(({ inner }) => {
      const line = this.lines.get(String(inner));
      if (number === BAD_VALUE) return !SIGNAL_LINE_NAMES.has(String(inner));
      return number === MISSING_LINE ? !line : number === WRONG_DIRECTION && line && !line.isInput;
    }) || value;
  }

  /**
   * Returns the error message.
   * @param {Entry | null} entry the table with the error
   * @param {Key | null} key
   * @param {Value | null} value the wrong value
   */
  formatMessage(entry, key, value) {
    const { number, section, key: name } = this.error;
    if (number === MISSING_KEY) return say.lacksKeys(section, name);
    if (number === BAD_VALUE) return this.explainValues(value);
    if (number === TOO_MANY_PARTS && name === "") return say.tooManyTablesMessage(MAX_PARTS[section], section);
    if (number === TOO_MANY_PARTS) return say.tooManyColumnsMessage(MAX_COLUMNS);
    if (!entry || !key || !value) return this.messageFor(number);
    if (number === DUPLICATE_PART) return say.alreadyOnLine(`${name} ${value.inner}`, this.findDuplicateLine(entry, key));
    if (number === MISSING_LINE) return name === "rows" ? this.explainRows(entry) : this.explainMissingLine(String(value.inner));
    const { kind = "" } = this.lines.get(String(value.inner)) || {};
    return name === "columns" ? say.needsInput(String(value.inner)) : say.needsOutput(name, String(value.inner), kind === "bit");
  }

  /**
   * Returns a message that describes the valid values of the key or table with the error.
   * @param {Value | null} value the wrong value
   */
  explainValues(value) {
    const { section, index, key } = this.error;
    const values = (this.tables.get(section) || new Map()).get(key);
    const inner = value ? value.inner : null;
    const isSingleValue = typeof inner !== "object" && (key !== "columns" || value !== this.findWrongPart().key?.value);
    if (LINE_KEYS.includes(key) && isSingleValue) return say.noLineNameMessage(String(inner));
    const isQuotedNumber = typeof inner === "string" && /^\d+$/.test(inner);
    if (isQuotedNumber && `${section}.${key}` in VALUE_RANGES) return say.needsNoQuotesMessage(key, inner);
    if (key) return values ? say.keyMustBe(key, values) : this.messageFor(BAD_VALUE);
    if (section !== "keys" && index === 0) return say.tableArraySyntax(section);
    return section === "keys" ? say.ONE_MATRIX : say.mustBeTableMessage(section);
  }

  /**
   * Returns a message that explains why the board does not have a line or chain.
   * @param {string} name the name of a line, or the number of a chain
   */
  explainMissingLine(name) {
    const [, kind = "", number = "", chip = ""] = /^(rom|ram|chain)(\d+)\.(\d+)/.exec(name) || [];
    const { banks, chains } = this.parts;
    if (kind === "") return say.noChainMessage(name, chains.length);
    if (kind === "rom") return say.noSuchRomMessage(name, number);
    const bank = banks.find((candidate) => String(candidate.bank) === number);
    if (kind === "ram" && bank && Number(chip) >= bank.chips) return say.noChipInBankMessage(name, number, bank.chips);
    if (kind === "ram") return say.noSuchBankMessage(name, number);
    const chain = chains[Number(number)];
    return chain ? say.noBitInChainMessage(name, number, BITS_PER_CHIP * chain.chips - 1) : say.noChainMessage(number, chains.length);
  }

  /**
   * Returns a message that names the bits that the rows of the key matrix need, and the last bit of their chain.
   * @param {Entry} entry the `keys` table
   */
  explainRows({ keys }) {
    const [chain, first, rows] = ["chain", "first", "rows"].map((name) => {
      const key = keys.find((candidate) => candidate.name === name);
      return key ? Number(key.value.inner) : 0;
    });
    const { chips = 0 } = this.parts.chains[chain] || {};
    return say.rowsNeedBits(first, first + rows - 1, chain, BITS_PER_CHIP * chips - 1);
  }

  /**
   * Returns the line number of the first other table with the same value for a key; 1 if there is none.
   * @param {Entry | null} entry the table with the error
   * @param {Key} key
   */
  findDuplicateLine(entry, key) {
    const first = this.entries.find((candidate) => candidate !== entry
      && candidate.keys.some(({ name, value }) => name === key.name && value.inner === key.value.inner));
    return first ? first.line : 1;
  }

  /**
   * Returns the error for an unknown key or table, with similar names as suggestions.
   * @param {Entry | null} entry
   * @param {Key | null} key
   * @returns {TextError}
   */
  createUnknownKeyError(entry, key) {
    const { section, key: name } = this.error;
    const knownNames = section === "" ? Object.keys(PART_KEYS) : PART_KEYS[section];
    const suggestions = findSimilarWords(name, knownNames);
    const suggestionText = formatSuggestion(suggestions) || say.whichHasKeys(knownNames.join(", "));
    const message = section === "" ? say.noPartMessage(name, suggestionText) : say.noKeyOfMessage(name, section, suggestionText);
    const range = key || entry;
    const unknownKeyError = range ? createErrorAt(UNKNOWN_KEY, range, message) : this.createWholeLineError(message);
    const quickFixTexts = key ? suggestions : suggestions.map(formatHeader);
    return quickFixTexts.length > 0 && range ? { ...unknownKeyError, quickFixTexts } : unknownKeyError;
  }

  /**
   * Returns an error whose range is the complete line that the bench reports.
   * @param {string} message
   * @returns {TextError}
   */
  createWholeLineError(message) {
    const { number } = this.error;
    const line = Math.max(1, this.error.line);
    return { number, line, from: 0, to: Infinity, words: message };
  }
}

/**
 * Returns the error that the bench reports for a board text, with its position and message.
 * @param {string} text the board text, as `toAsciiComments` returns it
 * @param {BoardError} error
 * @param {Map<string, Map<string, string>>} tables the manual's descriptions of the values, by table and key
 * @param {(number: number) => string} messageFor returns the message of a refusal
 * @returns {TextError}
 */
export function createBoardError(text, error, tables, messageFor) {
  const boardError = new BoardErrorText(readBoardText(text), error, tables, messageFor).createError();
  const line = text.split("\n")[boardError.line - 1] || "";
  return { ...boardError, to: Math.min(boardError.to, line.length) };
}
