// Executes the command `source FILE` at a prompt: the prompt executes the lines of the file. The file can itself contain `source` lines.
// Error messages name the file and the line.

import * as say from "../../words/session_prompt.js";

/**
 * The prompt that executes the lines. `isEnded` is true after `quit`. `enterLine` executes a line, and resolves to false if the line is
 * rejected. `discardUnfinished` discards an unfinished text or command list, and returns a message about it; "" if there is none.
 * @typedef {{ isEnded: boolean, enterLine: (line: string) => Promise<boolean>, discardUnfinished: () => string }} LineServer
 */

/** The maximum nesting depth of `source` lines. */
const MAX_NESTING = 8;

export class SourceCommand {
  /**
   * @param {LineServer} server
   * @param {{ read: (name: string) => string, printError: (words: string) => void }} callbacks `read` returns the text of a file,
   *   and throws an error if it cannot read the file; `printError` prints an error message
   */
  constructor(server, callbacks) {
    this.server = server;
    this.callbacks = callbacks;
    /** @type {{ name: string, lineNumber: number }[]} the nested files with their current line numbers, innermost last */
    this.files = [];
  }

  /** The file that contains the current line; undefined if the line was typed. */
  get file() {
    return this.files[this.files.length - 1];
  }

  /**
   * Prints an error message. For an error in a file, adds the file and the line.
   * @param {string} message
   */
  printError(message) {
    this.callbacks.printError(this.file ? say.errorInFile(this.file.name, this.file.lineNumber, message) : message);
  }

  /**
   * Executes the lines of a file until a line is rejected. Resolves to false if a line is rejected. Throws an error if the file cannot be
   * read, is nested too deeply, or ends within a text or command list.
   * @param {string} name
   */
  async serve(name) {
    if (name === "") throw new Error(say.SOURCE_SYNTAX);
    if (this.files.length === MAX_NESTING) throw new Error(say.sourcesTooDeep(MAX_NESTING));
    const lines = this.callbacks.read(name).replace(/\n$/, "").split("\n");
    const file = { name, lineNumber: 0 };
    this.files.push(file);
    let isDone = true;
    for (const line of lines) {
      file.lineNumber += 1;
      isDone = await this.server.enterLine(line);
      if (!isDone || this.server.isEnded) break;
    }
    const discardMessage = this.server.discardUnfinished();
    this.files.pop();
    if (isDone && discardMessage !== "" && !this.server.isEnded) throw new Error(say.endsTooSoon(name, discardMessage));
    return isDone;
  }
}
