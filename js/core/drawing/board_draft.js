// Parses the board text in the editor: its parts, their positions in the text, and the board that the text describes. Only the bench
// decides whether a text is valid. Therefore, the board editor edits the text only if the bench's answer to `board` equals `boardAnswers`.

import { readBoard } from "../bench/answers.js";
import { PART_KEYS, PART_KINDS } from "../bench/board_form.js";
import { readBoardText } from "../text/board_reader.js";

/**
 * @typedef {import("../bench/answers.js").Board} Board
 * @typedef {import("../text/board_reader.js").End} End
 * @typedef {import("../text/board_reader.js").Entry} Entry
 * @typedef {import("../text/board_reader.js").Key} Key
 * @typedef {import("../text/board_reader.js").Value} Value
 * @typedef {import("../bench/board_form.js").Kind} Kind
 */

/**
 * Formats a value as in the bench's answer to `board`.
 * @param {Value} value
 * @returns {string}
 */
function formatValue({ inner }) {
  if (Array.isArray(inner)) return `[${inner.map(formatValue).join(", ")}]`;
  return JSON.stringify(typeof inner === "object" ? null : inner);
}

/** A parsed board text. */
export class BoardDraft {
  /** @param {string} text */
  constructor(text) {
    this.text = text;
    this.lines = text.split("\n");
    /** The start offset of each line, followed by the length of the text + 1. */
    this.lineOffsets = [0];
    for (const line of this.lines) this.lineOffsets.push(this.lineOffsets[this.lineOffsets.length - 1] + line.length + 1);
    const { entries, keys, errors } = readBoardText(text);
    /** The TOML keys that belong to no table. The value of such a key can be an array of parts. */
    this.keys = keys;
    this.entries = entries;
    /** True if the text has no TOML syntax error. */
    this.isToml = errors.length === 0;
  }

  /**
   * Returns the parts of a kind, in the order of the text.
   * @param {Kind} kind
   */
  partsOfKind(kind) {
    return this.entries.filter(({ table }) => table === (kind === "keys" ? "[keys]" : kind));
  }

  /**
   * Returns a part by its index among the parts of its kind. Throws if there is no such part.
   * @param {Kind} kind
   * @param {number} index
   */
  requirePart(kind, index) {
    const part = this.partsOfKind(kind)[index];
    if (!part) throw new Error(`the text has no ${kind} ${index}`);
    return part;
  }

  /**
   * Returns the TOML key with the given name in a part. Throws if the part lacks the key.
   * @param {Entry} entry
   * @param {string} name
   */
  requireKey({ keys }, name) {
    const tomlKey = keys.find((key) => key.name === name);
    if (!tomlKey) throw new Error(`a part lacks ${name}`);
    return tomlKey;
  }

  /**
   * Returns the ROM with the given chip number, or the RAM bank with the given bank number. Throws if there is no such part.
   * @param {"rom" | "ram"} kind
   * @param {number} number
   */
  partByNumber(kind, number) {
    const key = PART_KEYS[kind][0];
    return this.requirePart(kind, this.partsOfKind(kind).findIndex((entry) => this.requireKey(entry, key).value.inner === number));
  }

  /**
   * Returns the offset of a position in the text.
   * @param {number} line the line number from 1
   * @param {number} column the column from 0
   */
  offsetAt(line, column) {
    return this.lineOffsets[line - 1] + column;
  }

  /**
   * Returns the offset of the first character of a value, key or part.
   * @param {Value | Key | Entry} element
   */
  startOffset({ line, from }) {
    return this.offsetAt(line, from);
  }

  /**
   * Returns the offset after the last character of a value.
   * @param {{ end?: End, line: number, to: number }} value
   */
  endOffset({ end, line, to }) {
    return end ? this.offsetAt(end.line, end.to) : this.offsetAt(line, to);
  }

  /**
   * Returns the number of the last line of a part.
   * @param {Entry} entry
   */
  findLastLine({ line, keys, end }) {
    return end ? end.line : Math.max(line, ...keys.map(({ value }) => value.end.line));
  }

  /** The board that the text describes, in the format of the bench's answer to `board`; null if a part lacks a key. */
  get boardAnswers() {
    /** @type {string[]} */
    const lines = ["board"];
    for (const kind of PART_KINDS) {
      const number = kind === "rom" || kind === "ram" ? PART_KEYS[kind][0] : "";
      /** @type {(entry: Entry) => number} */
      const rank = (entry) => Number((entry.keys.find(({ name }) => name === number) || { value: { inner: 0 } }).value.inner);
      const entries = number ? [...this.partsOfKind(kind)].sort((a, b) => rank(a) - rank(b)) : this.partsOfKind(kind);
      for (const { keys } of entries) {
        lines.push(kind === "keys" ? "[keys]" : `[[${kind}]]`);
        for (const key of PART_KEYS[kind]) {
          const tomlKey = keys.find(({ name }) => name === key);
          if (!tomlKey) return null;
          lines.push(`${key} = ${formatValue(tomlKey.value)}`);
        }
      }
    }
    return lines;
  }

  /** @returns {Board} the board that the text describes; throws if a part lacks a key */
  get board() {
    const { boardAnswers } = this;
    if (!boardAnswers) throw new Error("the text does not describe a board");
    return readBoard(boardAnswers);
  }

  /**
   * Returns whether the text describes the same board as an answer of the bench.
   * @param {string[]} answers the bench's answer to `board` after `wire` with the text
   */
  matchesAnswers(answers) {
    return this.isToml && this.boardAnswers !== null && this.boardAnswers.join("\n") === answers.join("\n");
  }
}
