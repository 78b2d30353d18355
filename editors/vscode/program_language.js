// Recognises programs, tests and properties of the bench. Other software also uses the file extensions .asm, .test and .props, so this module accepts
// such a file only in the folder of a project or a board. Only the bench uses .4004, so package.json itself assigns a language to that extension.
"use strict";
const { extname } = require("node:path");
const { belongsToProject } = require("./bench_files.js");

/** The language ids, by file extension. */
const LANGUAGE_BY_EXTENSION = { ".asm": "mcs4", ".test": "mcs4-test", ".props": "mcs4-props" };

/** Assigns a language to each file of a project when the file is first opened. Later, the user can choose another language. */
class ProgramLanguage {
  /** @param vscode the editor's API module */
  constructor(vscode) {
    this.vscode = vscode;
    this.assignedFiles = new Set();
  }

  register() {
    const { workspace } = this.vscode;
    for (const document of workspace.textDocuments) this.assignLanguage(document);
    return workspace.onDidOpenTextDocument((document) => this.assignLanguage(document));
  }

  assignLanguage(document) {
    const { uri, fileName, languageId } = document;
    const language = LANGUAGE_BY_EXTENSION[extname(fileName).toLowerCase()];
    if (uri.scheme !== "file" || !language || languageId === language) return;
    if (this.assignedFiles.has(fileName) || !belongsToProject(fileName)) return;
    this.assignedFiles.add(fileName);
    // The request fails if the user has closed the document in the meantime. Ignore that error.
    this.vscode.languages.setTextDocumentLanguage(document, language).then(undefined, () => {});
  }
}

module.exports = { ProgramLanguage };
