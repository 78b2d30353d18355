// Handlers for an editor's requests about a property file. The parser of property files is explore/campaign.js.

import { readCampaign } from "../explore/campaign.js";
import { createSubject } from "../explore/subject.js";
import { LINE_COLOURERS } from "../text/test_colours.js";
import { FOLD_PATTERNS } from "../text/folding.js";
import { completeProperty, helpForProperty, readPropertyForms } from "../text/property_words.js";
import { DependentLanguage, locateError } from "./dependent_language.js";
import { parentFolder, uriInFolder } from "./text_kinds.js";
import { rangeInLine } from "./lsp_protocol.js";
import { listColouredWords } from "./token_codes.js";

/**
 * @typedef {import("./language.js").DocumentLink} DocumentLink
 * @typedef {import("./open_text.js").OpenText} OpenText
 * @typedef {import("./lsp_protocol.js").Position} Position
 */

/** The protocol's symbol kind for a property. */
const PROPERTY_SYMBOL = 7;
/** Matches a line that is shown as a symbol: a property, a goal (`reach`), or a model. */
const PROPERTY_LINE = /^(never|always|at|after|every|no|reach|model|while|once|@\S+|.*\bonly after)\b/;
/**
 * Matches a line `from STATE of FILE`: the search starts at a state that a test in another file saves. Captures the text before the file
 * name, and the file name.
 */
const STATE_OF_FILE = /^([ \t]*from[ \t]+\S+[ \t]+of[ \t]+)(\S.*)$/;

export class PropertyLanguage extends DependentLanguage {
  /**
   * @param {import("../engine/engine_host.js").EngineHost} engine
   * @param {import("../help/manual.js").ManualSection[]} manual
   * @param {(uri: string) => import("./dependent_language.js").DependencyTexts} findDependencies
   * @param {import("./text_kinds.js").ReadText} readText
   */
  constructor(engine, manual, findDependencies, readText) {
    super(engine, findDependencies);
    this.foldPatterns = { ...FOLD_PATTERNS.tests, head: /(?!)/ };
    this.forms = readPropertyForms(manual);
    this.readText = readText;
  }

  /**
   * Finds the errors in a property file. If the board or the program is missing or has an error, the result contains only a message about
   * this.
   * @param {OpenText} openText
   */
  async findErrors({ uri, lines, text }) {
    const dependencies = this.findDependencies(uri);
    const dependencyError = this.findDependencyError(dependencies);
    if (dependencyError) return { errors: [dependencyError], isComplete: true };
    if (text.trim() === "") return { errors: [], isComplete: true };
    const { errors } = readCampaign(text, this.getSubject(dependencies.board.text || "", dependencies.program.text || ""));
    return { errors: errors.map((error) => locateError(lines, error)), isComplete: true };
  }

  /**
   * Returns the board and the program in the form that a search for counterexamples uses. If both texts are the same as in the last call,
   * returns the same result again.
   * @param {string} boardText
   * @param {string} programText
   */
  getSubject(boardText, programText) {
    if (!this.lastSubject || this.lastSubject.boardText !== boardText || this.lastSubject.programText !== programText) {
      this.lastSubject = { boardText, programText, subject: createSubject(this.engine, boardText, programText) };
    }
    return this.lastSubject.subject;
  }

  /**
   * Returns the help for the word at a position; null if there is none.
   * @param {OpenText} openText
   * @param {Position} position
   */
  hover({ lines }, position) {
    return this.hoverWithHelp(helpForProperty(lines, position.line, position.character, this.forms), lines, position);
  }

  /**
   * Returns the completions at a position.
   * @param {OpenText} openText
   * @param {Position} position
   * @param {string} trigger
   */
  completion(openText, { line, character }, trigger) {
    if (trigger !== "" && openText.lines[line].slice(0, character).trim() === "") return { from: character, to: character, list: [] };
    return this.addKinds(completeProperty(openText.lines, line, character, this.findNames(openText), this.forms));
  }

  /**
   * Returns the location of the program label at a position; null if there is none.
   * @param {OpenText} openText
   * @param {Position} position
   */
  definition(openText, position) {
    return this.labelAt(openText, position);
  }

  /**
   * Returns a document symbol for each line that has a property, a goal or a model.
   * @param {OpenText} openText
   */
  symbols({ lines }) {
    return lines.flatMap((text, line) => {
      if (!PROPERTY_LINE.test(text.trim())) return [];
      const range = rangeInLine(line + 1, text.length - text.trimStart().length, text.trimEnd().length);
      return [{ name: text.trim(), kind: PROPERTY_SYMBOL, detail: "", range, selectionRange: range }];
    });
  }

  /**
   * Returns the words to colour.
   * @param {OpenText} openText
   */
  semanticTokens({ lines }) {
    return listColouredWords(lines, LINE_COLOURERS.properties);
  }

  /**
   * Returns links to the files in `from STATE of FILE` lines, if the files exist and are inside the folder.
   * @param {OpenText} openText
   * @returns {DocumentLink[]}
   */
  links({ uri, lines }) {
    const folder = parentFolder(uri);
    return lines.flatMap((text, line) => {
      const [, textBefore, path] = STATE_OF_FILE.exec(text.trimEnd()) || [];
      const isInside = path !== undefined && !path.startsWith("/") && !path.split("/").includes("..");
      const target = isInside ? uriInFolder(folder, path) : "";
      if (target === "" || this.readText(target, folder) === null) return [];
      return [{ range: rangeInLine(line + 1, textBefore.length, textBefore.length + path.length), target, tooltip: path }];
    });
  }
}
