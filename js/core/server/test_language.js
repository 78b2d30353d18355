// Handlers for an editor's requests about a test file. The parser of test files is testing/test_text.js.

import { readSources } from "../testing/test_text.js";
import { LINE_COLOURERS } from "../text/test_colours.js";
import { FOLD_PATTERNS } from "../text/folding.js";
import { completeTest, helpForTest, readTestForms } from "../text/test_words.js";
import { DependentLanguage, locateError } from "./dependent_language.js";
import { rangeInLine } from "./lsp_protocol.js";
import { listColouredWords } from "./token_codes.js";
import * as say from "../../words/server.js";

/**
 * @typedef {import("./language.js").Lens} Lens
 * @typedef {import("./open_text.js").OpenText} OpenText
 * @typedef {import("./lsp_protocol.js").Position} Position
 *
 * The first line of a test, or of a list of steps that tests share. `line` counts from 0. `from` and `to` are the first column of the name
 * and the column after it.
 * @typedef {{ kind: "test" | "steps", name: string, line: number, from: number, to: number }} TestHead
 */

/** The protocol's symbol kinds for tests and for shared steps. */
const METHOD_SYMBOL = 6;
const FUNCTION_SYMBOL = 12;
/** Matches the first line of a test or of shared steps, and captures its parts. */
const HEAD_LINE = /^([ \t]*)(test|steps)([ \t]+)(\S.*)$/;

/**
 * Finds the first lines of all tests and shared steps.
 * @param {string[]} lines
 * @returns {TestHead[]}
 */
function findHeads(lines) {
  return lines.flatMap((text, line) => {
    const [, indent, kind, gap, name] = HEAD_LINE.exec(text.trimEnd()) || [];
    if (name === undefined) return [];
    const from = indent.length + kind.length + gap.length;
    return [{ kind: /** @type {"test" | "steps"} */ (kind), name, line, from, to: from + name.length }];
  });
}

export class TestLanguage extends DependentLanguage {
  /**
   * @param {import("../engine/engine_host.js").EngineHost} engine
   * @param {import("../help/manual.js").ManualSection[]} manual
   * @param {(uri: string) => import("./dependent_language.js").DependencyTexts} findDependencies
   */
  constructor(engine, manual, findDependencies) {
    super(engine, findDependencies);
    this.foldPatterns = FOLD_PATTERNS.tests;
    this.forms = readTestForms(manual);
  }

  /**
   * Finds the errors in a test file. If the board or the program is missing or has an error, the result contains only a message about this.
   * @param {OpenText} openText
   */
  async findErrors({ uri, lines, text }) {
    const dependencies = this.findDependencies(uri);
    const dependencyError = this.findDependencyError(dependencies);
    if (dependencyError) return { errors: [dependencyError], isComplete: true };
    const { prepared } = this.prepareTexts({ boardText: dependencies.board.text || "", programText: dependencies.program.text || "" });
    if (!prepared || text.trim() === "") return { errors: [], isComplete: true };
    const sources = dependencies.tests.map((namedText) => (
      { name: namedText.uri, text: namedText.uri === uri ? text : namedText.text || "" }));
    const { errors } = readSources(sources, prepared.names);
    return { errors: errors.filter(({ file }) => file === uri).map((error) => locateError(lines, error)), isComplete: true };
  }

  /**
   * Returns the help for the word at a position; null if there is none.
   * @param {OpenText} openText
   * @param {Position} position
   */
  hover({ lines }, position) {
    return this.hoverWithHelp(helpForTest(lines, position.line, position.character, this.forms), lines, position);
  }

  /**
   * Returns the completions at a position.
   * @param {OpenText} openText
   * @param {Position} position
   * @param {string} trigger
   */
  completion(openText, { line, character }, trigger) {
    if (trigger !== "" && openText.lines[line].slice(0, character).trim() === "") return { from: character, to: character, list: [] };
    return this.addKinds(completeTest(openText.lines, line, character, this.findNames(openText), this.forms));
  }

  /**
   * Returns the location of the steps that a `do` line names, or else of the program label at a position; null if there is neither.
   * @param {OpenText} openText
   * @param {Position} position
   */
  definition(openText, position) {
    const [, name] = /^[ \t]*do[ \t]+(\S+)/.exec(openText.lines[position.line]) || [];
    const stepsHead = findHeads(openText.lines).find((head) => head.kind === "steps" && head.name === name);
    if (!stepsHead) return this.labelAt(openText, position);
    return { uri: openText.uri, range: rangeInLine(stepsHead.line + 1, stepsHead.from, stepsHead.to) };
  }

  /**
   * Returns the tests and shared steps as symbols.
   * @param {OpenText} openText
   */
  symbols({ lines }) {
    const heads = findHeads(lines);
    return heads.map(({ kind, name, line, from, to }, index) => {
      const lastLine = (heads[index + 1] ? heads[index + 1].line : lines.length) - 1;
      const range = { start: { line, character: 0 }, end: { line: lastLine, character: lines[lastLine].length } };
      const symbolKind = kind === "test" ? METHOD_SYMBOL : FUNCTION_SYMBOL;
      return { name, kind: symbolKind, detail: kind, range, selectionRange: rangeInLine(line + 1, from, to) };
    });
  }

  /**
   * Returns the words to colour.
   * @param {OpenText} openText
   */
  semanticTokens({ lines }) {
    return listColouredWords(lines, LINE_COLOURERS.tests);
  }

  /**
   * Returns code lenses that run the tests, one for each test.
   * @param {OpenText} openText
   * @returns {Lens[]}
   */
  lenses({ lines }) {
    return findHeads(lines).filter(({ kind }) => kind === "test").map(({ name, line, from, to }) => (
      { range: rangeInLine(line + 1, from, to), title: say.RUN_TEST, references: null, test: name }));
  }
}
