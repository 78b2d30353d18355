// The base class of the handlers for test files and property files. Both kinds of file use the names of a board and a program.

import { Face } from "../board/face.js";
import { prepareTests } from "../testing/test_preparation.js";
import { findDefinedNames, splitStatement } from "../text/assembly.js";
import { findDefinition } from "../text/references.js";
import { wordsUpTo } from "../text/test_words.js";
import { escapeMarkdown } from "./markdown.js";
import { rangeInLine } from "./lsp_protocol.js";
import { errorInColumn } from "../../words/conditions.js";
import * as say from "../../words/server.js";

/**
 * @typedef {import("../engine/engine_host.js").EngineHost} Engine
 * @typedef {import("../testing/test_preparation.js").Texts} Texts
 * @typedef {import("../text/test_words.js").TestNames} TestNames
 * @typedef {import("./diagnostics.js").ShownError} ShownError
 * @typedef {import("./open_text.js").OpenText} OpenText
 * @typedef {import("./lsp_protocol.js").Position} Position
 *
 * A text with its URI. `text` is null if the file cannot be read.
 * @typedef {{ uri: string, text: string | null }} NamedText
 *
 * The texts that a test or property file depends on: the board, the program, and the test files of the project up to this file.
 * @typedef {{ board: NamedText, program: NamedText, tests: NamedText[] }} DependencyTexts
 */

/** The protocol's numbers for the completion kinds `Keyword` and `Value`. */
const KEYWORD_COMPLETION = 14;
const VALUE_COMPLETION = 12;

/**
 * Returns an error with a range: the word at its column, or the whole line if the column is unknown. Removes the column from the message,
 * because the range shows it.
 * @param {string[]} lines
 * @param {{ line: number, column: number, words: string }} error the error; its line counts from 1, its column from 0 (-1 if unknown)
 * @returns {ShownError}
 */
export function locateError(lines, { line, column, words: fullMessage }) {
  const message = column < 0 ? fullMessage : fullMessage.replace(errorInColumn("", column), "");
  const text = lines[line - 1] || "";
  const end = text.trimEnd().length;
  const textStart = Math.min(end, text.length - text.trimStart().length);
  if (column < 0 || column >= end) return { number: 0, line, from: textStart, to: end, words: message, isError: true };
  const [word = ""] = /^\S+/.exec(text.slice(column)) || [];
  return { number: 0, line, from: column, to: column + Math.max(1, word.length), words: message, isError: true };
}

/**
 * Returns the file name in a URI.
 * @param {string} uri
 */
export function decodeFileName(uri) {
  const name = uri.replace(/^.*\//, "");
  try {
    return decodeURIComponent(name);
  } catch {
    return name;
  }
}

export class DependentLanguage {
  /**
   * @param {Engine} engine
   * @param {(uri: string) => DependencyTexts} findDependencies
   */
  constructor(engine, findDependencies) {
    this.engine = engine;
    this.findDependencies = findDependencies;
    /** @type {{ texts: Texts, prepared: ReturnType<typeof prepareTests> } | null} the last call of `prepareTests` and its result */
    this.lastPrepared = null;
  }

  /**
   * Prepares a board and a program for tests. Returns a session with both texts and their names, or else their errors. If the texts are the
   * same as in the last call, returns the same result again.
   * @param {Texts} texts
   */
  prepareTexts(texts) {
    const { lastPrepared } = this;
    const isUnchanged = lastPrepared
      && lastPrepared.texts.boardText === texts.boardText && lastPrepared.texts.programText === texts.programText;
    if (!this.lastPrepared || !isUnchanged) this.lastPrepared = { texts, prepared: prepareTests(this.engine, texts) };
    return this.lastPrepared.prepared;
  }

  /**
   * Returns an error if the board or the program is missing or has an error; null if both are valid.
   * @param {DependencyTexts} dependencies
   * @returns {ShownError | null}
   */
  findDependencyError({ board, program }) {
    const missingFile = [board, program].find(({ text }) => text === null);
    const errorAtStart = (/** @type {string} */ message) => ({ number: 0, line: 1, from: 0, to: 0, words: message });
    if (missingFile) return errorAtStart(say.dependencyMissing(decodeFileName(missingFile.uri)));
    const { errors } = this.prepareTexts({ boardText: board.text || "", programText: program.text || "" });
    if (errors.length === 0) return null;
    const [{ text, line }] = errors;
    return errorAtStart(say.dependencyHasError(decodeFileName(text === "board" ? board.uri : program.uri), line));
  }

  /**
   * Returns the names of keys, lamps and labels that a text can use, even if the board or the program has errors.
   * @param {OpenText} openText
   * @returns {TestNames}
   */
  findNames({ uri }) {
    const { board, program } = this.findDependencies(uri);
    const face = new Face(board.text || "");
    const keys = [...face.keys.values()].map(({ text }) => text).filter((name) => name !== "");
    const lines = (program.text || "").split("\n");
    const labels = [...findDefinedNames(lines)].filter(([, line]) => !splitStatement(lines[line - 1]).defines).map(([name]) => name);
    return { keys: face.test ? [...keys, face.test.name] : keys, lamps: [...face.lampNumbers.keys()], labels };
  }

  /**
   * Returns completions with the completion kinds of the protocol.
   * @param {import("../text/completion.js").Completion} completion
   */
  addKinds({ from, to, list }) {
    return { from, to, list: list.map((item) => ({ ...item, kind: item.description ? KEYWORD_COMPLETION : VALUE_COMPLETION })) };
  }

  /**
   * Returns a hover with help for the word at a position; null if there is no help.
   * @param {string} helpText the help text, "" for none
   * @param {string[]} lines
   * @param {Position} position
   */
  hoverWithHelp(helpText, lines, { line, character }) {
    if (helpText === "") return null;
    const lineWords = wordsUpTo(lines[line], character);
    const word = lineWords[lineWords.length - 1] || "";
    const from = lines[line].lastIndexOf(word, character);
    return { plainText: helpText, markdown: escapeMarkdown(helpText), range: rangeInLine(line + 1, from, from + word.length) };
  }

  /**
   * Returns the location of the program label at a position; null if there is none.
   * @param {OpenText} openText
   * @param {Position} position
   */
  labelAt({ uri, lines }, { line, character }) {
    const lineWords = wordsUpTo(lines[line], character);
    const name = (lineWords[lineWords.length - 1] || "").replace(/^[(!]*@?|[,)]+$/g, "");
    const { program } = this.findDependencies(uri);
    const label = findDefinition((program.text || "").split("\n"), name);
    return label ? { uri: program.uri, range: rangeInLine(label.line, label.from, label.to) } : null;
  }
}
