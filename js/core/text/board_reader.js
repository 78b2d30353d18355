// Parses the subset of TOML that board texts use. The result contains the position of each key and value. After an error, the parser
// continues on the next line. Only the bench decides whether a board text is valid. This parser helps to explain why the bench rejects it.

import { VALUE_RANGES } from "../bench/board_form.js";
import { splitTomlWords } from "./toml_words.js";
import * as say from "../../words/text.js";

/**
 * @typedef {import("./sendable_text.js").TextError} TextError
 * @typedef {import("./toml_words.js").TomlWord} TomlWord
 * @typedef {string | number | boolean | Value[] | Entry} PlainValue
 *
 * The end of a word: its line number, and the index after its last character (`to`).
 * @typedef {{ line: number, to: number }} End
 *
 * A value (`inner`) with its position. `line`, `from` and `to` are the position of the value. For an array or an inline table, they are
 * the position of its opening bracket. `end` is the end of the complete value.
 * @typedef {{ inner: PlainValue, line: number, from: number, to: number, end: End }} Value
 *
 * A key: its name, the position of the name, and its value.
 * @typedef {{ name: string, line: number, from: number, to: number, value: Value }} Key
 *
 * A table: its name (in brackets if it is not an array of tables), the position of its header, and its keys. Only an inline table has an
 * `end`.
 * @typedef {{ table: string, line: number, from: number, to: number, keys: Key[], end?: End }} Entry
 *
 * The contents of a board text. `entries` are its tables, including inline tables. `keys` are the keys before the first table header;
 * `plainKeys` are the keys in `keys` whose values are neither tables nor arrays of tables. `errors` are the syntax errors.
 * @typedef {{ entries: Entry[], plainKeys: Key[], keys: Key[], errors: TextError[] }} BoardText
 */

/** The refusal number for a board text that is not TOML. */
const NOT_TOML = 20;
/** The maximum nesting depth of brackets and braces. A board needs three levels. */
const MAX_DEPTH = 32;
/** Matches a TOML integer: decimal, hexadecimal, octal or binary. */
const INTEGER = /^[+-]?(0|[1-9](_?\d)*)$|^0x[0-9A-Fa-f](_?[0-9A-Fa-f])*$|^0o[0-7]+$|^0b[01]+$/;

/** The error for a word that is not valid TOML. */
class TomlSyntaxError extends Error {
  /**
   * @param {TomlWord} word
   * @param {string} message
   */
  constructor(word, message) {
    super(message);
    this.word = word;
  }
}

/** A parser of one board text. Its methods throw TomlSyntaxError at a syntax error; `read` records these errors. */
export class BoardReader {
  /** @param {string} text */
  constructor(text) {
    this.words = splitTomlWords(text.split("\n"));
    /** The index of the next word to read. */
    this.index = 0;
    /** @type {Entry[]} */
    this.entries = [];
    /** @type {Key[]} */
    this.plainKeys = [];
    /** @type {Key[]} */
    this.keys = [];
    /** @type {TextError[]} */
    this.errors = [];
    /** @type {Entry | null} the current table; null before the first table */
    this.currentTable = null;
    /** The number of open brackets and braces. */
    this.depth = 0;
  }

  /** The next word to read. */
  get word() {
    return this.words[this.index];
  }

  /** @returns {End} the end of the last word that was read */
  get lastWordEnd() {
    const { line, to } = this.words[this.index - 1];
    return { line, to };
  }

  /**
   * Returns whether the next word is the punctuation mark `mark`.
   * @param {string} mark
   */
  isMark(mark) {
    return this.word.kind === "punctuation" && this.word.text === mark;
  }

  /**
   * Reads a punctuation mark. Throws if the next word is not this mark.
   * @param {string} mark
   * @param {string} message the error message
   */
  expectMark(mark, message) {
    if (!this.isMark(mark)) throw new TomlSyntaxError(this.word, this.word.error || message);
    this.index += 1;
  }

  /** Reads the complete text. After an error, continues on the next line. */
  read() {
    while (this.index < this.words.length) {
      const startIndex = this.index;
      try {
        this.readStatement();
      } catch (error) {
        if (!(error instanceof TomlSyntaxError)) throw error;
        const { line, from, to } = error.word;
        this.errors.push({ number: NOT_TOML, line, from, to, words: error.message });
        this.index = this.findNextLineStart(line, startIndex);
      }
    }
  }

  /**
   * Returns the index of the first word after a line with an error.
   * @param {number} line the number of this line
   * @param {number} startIndex the index of the first word in the statement with the error
   */
  findNextLineStart(line, startIndex) {
    let index = startIndex;
    while (index < this.words.length && !(this.words[index].kind === "end" && this.words[index].line >= line)) index += 1;
    return index + 1;
  }

  /** Reads an empty line, a table header, or a key with its value. */
  readStatement() {
    if (this.word.kind === "end") this.index += 1;
    else if (this.isMark("[")) this.readHeader();
    else this.readPair();
  }

  /** Reads a table header such as `[keys]` or `[[rom]]`. */
  readHeader() {
    const { line, from } = this.word;
    const isArray = this.words[this.index + 1].text === "[" && this.words[this.index + 1].kind === "punctuation";
    this.index += isArray ? 2 : 1;
    const name = this.word;
    if (name.kind !== "bare" && name.kind !== "string") throw new TomlSyntaxError(name, say.TABLE_SYNTAX);
    this.index += 1;
    this.expectMark("]", say.bracketMissing(isArray ? `[[${name.text}]]` : `[${name.text}]`));
    if (isArray) this.expectMark("]", say.bracketMissing(`[[${name.text}]]`));
    this.currentTable = { table: isArray ? name.text : `[${name.text}]`, line, from, to: name.to + (isArray ? 2 : 1), keys: [] };
    this.entries.push(this.currentTable);
    this.expectLineEnd();
  }

  /** Reads the end of a line. Throws if another word is left on the line. */
  expectLineEnd() {
    if (this.word.kind !== "end") throw new TomlSyntaxError(this.word, this.word.error || say.LINE_MUST_END);
    this.index += 1;
  }

  /** Reads a key and its value, and adds them to the current table. */
  readPair() {
    const key = this.readKey();
    const { inner } = key.value;
    if (this.currentTable) this.currentTable.keys.push(key);
    else {
      this.keys.push(key);
      if (!this.addTables(key.name, inner)) this.plainKeys.push(key);
    }
    this.expectLineEnd();
  }

  /**
   * Adds the inline tables in a value to the tables of the text. Returns false if the value is neither a table nor an array of tables.
   * @param {string} name the key of the value
   * @param {PlainValue} inner
   */
  addTables(name, inner) {
    if (Array.isArray(inner)) {
      const tables = inner.filter(({ inner: plainValue }) => typeof plainValue === "object" && !Array.isArray(plainValue));
      if (tables.length < inner.length) return false;
      for (const { inner: table } of tables) this.entries.push({ .../** @type {Entry} */ (table), table: name });
      return true;
    }
    if (typeof inner !== "object") return false;
    this.entries.push({ ...inner, table: `[${name}]` });
    return true;
  }

  /** @returns {Key} the key at the current position, with its value */
  readKey() {
    const name = this.word;
    if (name.kind !== "bare" && name.kind !== "string") throw new TomlSyntaxError(name, name.error || say.KEY_MISSING);
    this.index += 1;
    this.expectMark("=", say.equalsMissing(name.text));
    return { name: name.text, line: name.line, from: name.from, to: name.to, value: this.readValue(name.text) };
  }

  /**
   * Reads the value of a key, or an element of an array.
   * @param {string} key the name of the key, for messages
   * @returns {Value}
   */
  readValue(key) {
    const { kind, text, line, from, to, error } = this.word;
    const range = { line, from, to };
    if (this.isMark("[")) return { inner: this.readNested(() => this.readArray(key)), ...range, end: this.lastWordEnd };
    if (this.isMark("{")) return { inner: this.readNested(() => this.readTable()), ...range, end: this.lastWordEnd };
    if (kind === "end") throw new TomlSyntaxError(this.word, say.valueMissing(key));
    if (kind === "punctuation" || kind === "bad") throw new TomlSyntaxError(this.word, error || say.noValueMessage(text));
    const inner = this.parseScalar(kind, text);
    this.index += 1;
    return { inner, ...range, end: { line, to } };
  }

  /**
   * Reads an array or an inline table. Throws if the nesting is too deep.
   * @template Read
   * @param {() => Read} read reads the array or table
   * @returns {Read}
   */
  readNested(read) {
    if (this.depth === MAX_DEPTH) throw new TomlSyntaxError(this.word, say.tooDeepMessage(MAX_DEPTH));
    this.depth += 1;
    try {
      return read();
    } finally {
      this.depth -= 1;
    }
  }

  /**
   * Returns the value of a string, number or boolean. Throws for any other word.
   * @param {string} kind the kind of the word
   * @param {string} text
   * @returns {PlainValue}
   */
  parseScalar(kind, text) {
    if (kind === "string") return text;
    if (INTEGER.test(text)) return Number(text.replace(/_/g, ""));
    if (text === "true" || text === "false") return text === "true";
    if (/^[+-]?\d+(\.\d+)?([eE][+-]?\d+)?$/.test(text) && !/^[+-]?0\d/.test(text)) return Number(text);
    if (/^0\d+$/.test(text)) throw new TomlSyntaxError(this.word, say.leadingZeroMessage(text));
    throw new TomlSyntaxError(this.word, say.needsQuotesMessage(text));
  }

  /** Skips line ends, so that the current word is on the next line with words. */
  skipLineEnds() {
    while (this.index < this.words.length - 1 && this.word.kind === "end") this.index += 1;
  }

  /**
   * Reads an array, which can extend over several lines. Returns its elements.
   * @param {string} key the name of the key, for messages
   * @returns {Value[]}
   */
  readArray(key) {
    const openingBracket = this.word;
    this.index += 1;
    const values = [];
    for (this.skipLineEnds(); !this.isMark("]"); this.skipLineEnds()) {
      if (this.word.kind === "end") throw new TomlSyntaxError(openingBracket, say.BRACKET_NOT_CLOSED);
      values.push(this.readValue(key));
      this.skipLineEnds();
      if (this.isMark(",")) this.index += 1;
      else if (!this.isMark("]")) throw new TomlSyntaxError(this.word, this.word.error || say.VALUE_COMMA_MISSING);
    }
    this.index += 1;
    return values;
  }

  /** @returns {Entry} the inline table at the current position */
  readTable() {
    const { line, from, to } = this.word;
    this.index += 1;
    const keys = [];
    while (!this.isMark("}")) {
      if (this.word.kind === "end") throw new TomlSyntaxError(this.word, say.BRACE_NOT_CLOSED);
      keys.push(this.readKey());
      if (this.isMark(",")) this.index += 1;
      else if (!this.isMark("}")) throw new TomlSyntaxError(this.word, this.word.error || say.KEY_COMMA_MISSING);
    }
    this.index += 1;
    return { table: "", line, from, to, keys, end: this.lastWordEnd };
  }
}

/**
 * Parses a board text.
 * @param {string} text
 * @returns {BoardText}
 */
export function readBoardText(text) {
  const reader = new BoardReader(text);
  reader.read();
  const { entries, plainKeys, keys, errors } = reader;
  return { entries, plainKeys, keys, errors };
}

/**
 * Returns the ROMs, RAM banks and chains in the tables of a board text. A number of chips above the maximum is reduced to the maximum.
 * @param {Entry[]} entries the tables
 */
export function collectParts(entries) {
  /** @type {(table: string) => Map<string, PlainValue>[]} */
  const findTables = (table) => entries.filter((entry) => entry.table === table).map(({ keys }) => (
    new Map(keys.map(({ name, value }) => [name, value.inner]))));
  /** @type {(table: string, values: Map<string, PlainValue>) => number} */
  const countChips = (table, values) => Math.min(VALUE_RANGES[`${table}.chips`].to, Number(values.get("chips")) || 0);
  return {
    roms: findTables("rom").map((values) => ({ chip: Number(values.get("chip")), port: String(values.get("port")) })),
    banks: findTables("ram").map((values) => ({ bank: Number(values.get("bank")), chips: countChips("ram", values) })),
    chains: findTables("chain").map((values) => ({ chips: countChips("chain", values) })),
  };
}
