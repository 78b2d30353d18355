// Handlers for an editor's requests about a project file: errors, symbols, and links to the named files.

import { listNamedFiles } from "../project/project_toml.js";
import { FOLD_PATTERNS } from "../text/folding.js";
import { findProjectErrors, parentFolder, readProject, uriInFolder } from "./text_kinds.js";
import { rangeInLine } from "./lsp_protocol.js";

/**
 * @typedef {import("./text_kinds.js").ReadText} ReadText
 * @typedef {import("./language.js").DocumentLink} DocumentLink
 * @typedef {import("./open_text.js").OpenText} OpenText
 */

/** The protocol's symbol kind for a file. */
const FILE_SYMBOL = 1;

export class ProjectLanguage {
  /** @param {ReadText} readText */
  constructor(readText) {
    this.foldPatterns = FOLD_PATTERNS.board;
    this.readText = readText;
  }

  /**
   * Finds the errors in a project file.
   * @param {OpenText} openText
   */
  async findErrors({ uri, text }) {
    return { errors: findProjectErrors(uri, text, this.readText), isComplete: true };
  }

  /**
   * Returns the files that a project names; an empty list if the project file has errors.
   * @param {OpenText} openText
   */
  listProjectFiles({ text }) {
    const { names } = readProject(text);
    return names ? listNamedFiles(names) : [];
  }

  /**
   * Returns the files that a project names, as symbols.
   * @param {OpenText} openText
   */
  symbols(openText) {
    return this.listProjectFiles(openText).map(({ path, key, line, from, to }) => {
      const range = rangeInLine(line, from, to);
      return { name: path, kind: FILE_SYMBOL, detail: key, range, selectionRange: range };
    });
  }

  /**
   * Returns links to the files that the project names, if they exist and are inside the folder of the project.
   * @param {OpenText} openText
   * @returns {DocumentLink[]}
   */
  links(openText) {
    const folder = parentFolder(openText.uri);
    const existingFiles = this.listProjectFiles(openText).filter(({ path }) => this.readText(uriInFolder(folder, path), folder) !== null);
    return existingFiles.map(({ path, line, from, to }) => (
      { range: rangeInLine(line, from, to), target: uriInFolder(folder, path), tooltip: path }));
  }
}
