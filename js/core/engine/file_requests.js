// Requests about the module, and about files and source texts that do not belong to the open session.

import { readErrors, readWiring } from "../bench/text_check_answers.js";
import { Engine } from "./engine.js";
import { exampleLines } from "./examples.js";
import { recoverTexts } from "./text_recovery.js";
import { dryRun } from "./dry_run.js";

/**
 * @typedef {import("./open_bench.js").OpenBench} OpenBench
 * @typedef {import("./examples.js").Example} Example
 */

export class FileRequests {
  /** @param {OpenBench} bench */
  constructor(bench) {
    this.bench = bench;
  }

  /**
   * Loads the module; resolves to the size of a session file in bytes.
   * @param {ArrayBuffer} module
   * @param {Example[]} examples
   */
  async load(module, examples) {
    this.bench.examples = examples;
    this.bench.loadedModule = await Engine.load(module);
    return this.bench.loadedModule.size;
  }

  /**
   * Returns a session file that contains a snapshot of the state instead of the log of commands. Throws if the bytes are not a session.
   * @param {Uint8Array} file
   */
  settleFile(file) {
    const settledFile = new Uint8Array(file.length);
    this.bench.engine.serve(file, "", settledFile);
    return settledFile;
  }

  /**
   * Returns a new session file with the board and program of an example.
   * @param {Example} example
   */
  createFile(example) {
    const file = this.bench.engine.begin();
    this.bench.engine.serve(file, exampleLines(example), file);
    return file;
  }

  /**
   * Returns source texts for a session file. The file itself contains no source texts.
   * @param {Uint8Array} file
   */
  recoverTexts(file) {
    return recoverTexts(this.bench.engine, file, this.bench.examples);
  }

  /**
   * Loads imported texts into a new session. Returns the session file, and the texts that the bench rejected.
   * @param {import("./dry_run.js").Texts} texts
   */
  dryRun(texts) {
    return dryRun(this.bench.engine, texts);
  }

  /**
   * Returns the error in a board text, or null if there is none.
   * @param {string} boardText
   */
  findBoardError(boardText) {
    const { engine } = this.bench;
    return readWiring(engine.ask(engine.begin(), `wiring\n${boardText}.\n`).answers[0]);
  }

  /**
   * Returns the errors in the lines of a program.
   * @param {string} programText
   */
  findLineErrors(programText) {
    const { engine } = this.bench;
    return readErrors(engine.ask(engine.begin(), `errors\n${programText}.\n`).answers);
  }
}
