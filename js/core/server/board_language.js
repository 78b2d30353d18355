// Handlers for an editor's requests about a board text. The page's editor uses the same modules.

import { Face } from "../board/face.js";
import { TextErrorFinder, findFrontPanelErrors } from "../text/text_error_finder.js";
import { wordAt } from "../text/assembly.js";
import { readBoardText } from "../text/board_reader.js";
import { completeBoard } from "../text/board_completion.js";
import { FOLD_PATTERNS } from "../text/folding.js";
import { findCommentStart } from "../text/sendable_text.js";
import { helpForBoard } from "../text/text_help.js";
import { splitTomlWords } from "../text/toml_words.js";
import { BoardReferences } from "./board_references.js";
import { escapeMarkdown } from "./markdown.js";
import { REQUEST_FAILED, ProtocolError, rangeInLine } from "./lsp_protocol.js";
import * as say from "../../words/server.js";

/**
 * @typedef {import("./open_text.js").OpenText} OpenText
 * @typedef {import("./lsp_protocol.js").Position} Position
 * @typedef {import("./text_bench.js").TextBench} TextBench
 * @typedef {import("./token_codes.js").ColouredWord} ColouredWord
 */

/** The protocol's numbers for the kinds of a board's symbols and completions. */
const OBJECT_SYMBOL = 19;
const PROPERTY_COMPLETION = 10;

export class BoardLanguage {
  /**
   * @param {TextBench} bench
   * @param {Map<string, Map<string, string>>} tables the manual's descriptions of board keys, by table name
   * @param {(number: number) => string} refusalMessage returns the message for an error number of the bench
   */
  constructor(bench, tables, refusalMessage) {
    this.foldPatterns = FOLD_PATTERNS.board;
    this.tables = tables;
    this.errorFinder = new TextErrorFinder(bench.createQueries(), { instructions: new Map(), tables }, refusalMessage);
  }

  /**
   * Finds the errors in a board text. Resolves to undefined if `isWanted` returns false during the check.
   * @param {OpenText} openText
   * @param {() => boolean} isWanted returns false if the result is no longer needed
   */
  async findErrors({ text }, isWanted) {
    const errors = await this.errorFinder.findInBoard(text, isWanted);
    return errors && { ...errors, errors: [...errors.errors, ...findFrontPanelErrors(text)] };
  }

  /**
   * Returns the help for a board key, or the description of the port line or chain bit that a value names; null for any other position.
   * @param {OpenText} openText
   * @param {Position} position
   */
  hover({ lines, text }, { line, character }) {
    if (character > findCommentStart(lines[line], "#")) return null;
    const helpText = helpForBoard(lines, line, character, this.tables);
    const word = wordAt(lines[line], character);
    if (helpText && word) {
      return { plainText: helpText, markdown: escapeMarkdown(helpText), range: rangeInLine(line + 1, word.from, word.to) };
    }
    const references = new BoardReferences(text);
    const value = references.valueAt(line + 1, character);
    const hoverText = value ? references.describeValue(value, new Face(text)) : "";
    return value && hoverText ? { plainText: hoverText, markdown: escapeMarkdown(hoverText),
      range: rangeInLine(value.line, value.from, value.to) } : null;
  }

  /**
   * Returns the range of the chip or chain that the value at a position refers to; null if there is none.
   * @param {OpenText} openText
   * @param {Position} position
   */
  definition({ text }, { line, character }) {
    const references = new BoardReferences(text);
    const value = references.valueAt(line + 1, character);
    const entry = value && references.findReferencedEntry(value);
    return entry ? rangeInLine(entry.line, entry.from, entry.to) : null;
  }

  /**
   * Returns the ranges of all values that refer to the chip or chain at a position.
   * @param {OpenText} openText
   * @param {Position} position
   * @param {boolean} includesDefinition true to include the definition of the chip or chain
   */
  references({ text }, { line, character }, includesDefinition) {
    const references = new BoardReferences(text);
    const value = references.valueAt(line + 1, character);
    const entry = (value && references.findReferencedEntry(value)) || references.findEntryAtLine(line + 1);
    if (!entry) return [];
    const matchingValues = references.values.filter((candidate) => references.findReferencedEntry(candidate) === entry);
    return [...(includesDefinition ? [entry] : []), ...matchingValues].map((target) => rangeInLine(target.line, target.from, target.to));
  }

  /**
   * Throws ProtocolError, because a board text defines no names.
   * @returns {import("./lsp_protocol.js").TextEdit[]}
   */
  rename() {
    throw new ProtocolError(REQUEST_FAILED, say.NO_BOARD_NAMES);
  }

  /**
   * Returns the completions of a key or a value at a position.
   * @param {OpenText} openText
   * @param {Position} position
   * @param {string} trigger the typed character that triggered the request, "" for none
   */
  completion({ lines }, { line, character }, trigger) {
    // The editor also requests completions when the user types a blank. Returns an empty list then, unless a value starts after the blank.
    const textBefore = lines[line].slice(Math.max(0, character - 9), character);
    if (trigger === " " && !/=[ \t]*$/.test(textBefore)) return { from: character, to: character, list: [] };
    const boardCompletion = completeBoard(lines, line, character, this.tables);
    return { ...boardCompletion, list: boardCompletion.list.map((item) => ({ ...item, kind: PROPERTY_COMPLETION })) };
  }

  /**
   * Returns the chips, chains, keys and lamps of the board as symbols, with the ranges of their tables.
   * @param {OpenText} openText
   */
  symbols({ lines, text }) {
    const { entries, lamps, entryName } = new BoardReferences(text);
    const face = new Face(text);
    return entries.map((entry) => {
      const faceText = face.lamps.get(lamps.indexOf(entry));
      const lastLine = entry.keys.reduce((maxLine, { line, value }) => Math.max(maxLine, line, value.line), entry.line);
      const range = { start: rangeInLine(entry.line, entry.from, 0).start, end: rangeInLine(lastLine, 0, lines[lastLine - 1].length).end };
      const selectionRange = rangeInLine(entry.line, entry.from, entry.to);
      return { name: entryName(entry), kind: OBJECT_SYMBOL, detail: faceText ? faceText.text : "", range, selectionRange };
    });
  }

  /**
   * Returns the words to colour: comments, table names, keys and values.
   * @param {OpenText} openText
   * @returns {ColouredWord[]}
   */
  semanticTokens({ lines, text }) {
    const headers = new Set(readBoardText(text).entries.map(({ line }) => line));
    /** @type {ColouredWord[]} */
    const comments = lines.map((lineText, line) => ({ line, from: findCommentStart(lineText, "#"), to: lineText.length, type: "comment" }));
    const tokens = splitTomlWords(lines);
    return [...comments, ...tokens.flatMap(({ kind, text: word, line, from, to }, index) => {
      if (kind !== "bare" && kind !== "string") return [];
      const previousWord = tokens[index - 1] ? tokens[index - 1].text : "";
      const isHeader = headers.has(line) && previousWord === "[" && /^\s*\[/.test(lines[line - 1]);
      const isTomlKey = tokens[index + 1] && tokens[index + 1].text === "=" && tokens[index + 1].kind === "punctuation";
      const valueType = kind === "string" ? "string" : /^[+-]?\d/.test(word) ? "number" : "";
      const type = isHeader ? "class" : isTomlKey ? "property" : valueType;
      return type ? [{ line: line - 1, from, to, type }] : [];
    })];
  }
}
