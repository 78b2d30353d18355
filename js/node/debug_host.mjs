// The functions that the debugger needs from its host, implemented for Node: access to files and to session files. Only the native program
// (`mcs4 open`) writes session files.
import { closeSync, existsSync, fsyncSync, openSync, realpathSync } from "node:fs";
import { dirname, isAbsolute, join, resolve, sep } from "node:path";
import { findLockHolder, readUnlocked } from "./file_locks.mjs";
import { CommandError, errorMessage } from "./output.mjs";
import { openProgram } from "./session_process.mjs";
import { openInMessage } from "../words/adapter.js";
import { isInside, readUserFile, readUserText, prepareReplacement } from "./user_files.mjs";

/** The maximum size of a session file in bytes. */
const MAX_SESSION_BYTES = 1048576;

/** @typedef {import("../core/adapter/session_writer.js").OpenFile} OpenFile */

/**
 * A session file and the program that serves it.
 * @implements {OpenFile}
 */
class SessionFile {
  /**
   * @param {string} name
   * @param {import("./session_process.mjs").SessionProcess} program
   */
  constructor(name, program) {
    this.name = name;
    this.program = program;
    this.bytes = new Uint8Array(readUserFile(name, MAX_SESSION_BYTES));
  }

  /**
   * Sends lines to the program. Resolves to the answer lines.
   * @param {string} lines
   * @param {number} count the number of answer lines
   */
  ask(lines, count) {
    return this.program.ask(lines, count);
  }

  /**
   * Replaces the file atomically with a session that starts from `bytes` and executes `lines`. Does not change the file if `check` throws an error.
   * @param {Uint8Array} bytes
   * @param {string} lines
   * @param {number} count the number of answer lines
   * @param {(answers: string[]) => void} check
   */
  async replace(bytes, lines, count, check) {
    const { name, program: oldProgram } = this;
    const replacement = prepareReplacement(name, bytes);
    let program = null;
    try {
      program = await openProgram("open", replacement.name);
      check(await program.ask(lines, count));
      replacement.replaceTarget();
    } catch (error) {
      replacement.drop();
      if (program) await program.end();
      throw error;
    }
    this.program = program;
    syncFolder(dirname(name));
    await oldProgram.end();
  }

  end() {
    return this.program.end();
  }
}

/** @type {(name: string) => string} replaces the separators in a path with forward slashes, which the debugger expects and Windows accepts */
const toSlashes = (name) => (sep === "/" ? name : name.split(sep).join("/"));

/**
 * Makes the renaming of files in a folder durable.
 * @param {string} name
 */
function syncFolder(name) {
  const folder = openSync(name, "r");
  fsyncSync(folder);
  closeSync(folder);
}

/**
 * Starts the native program on a session file. If another process holds the file's lock, the error names that process.
 * @param {string} name
 */
async function openSessionFile(name) {
  try {
    return await openProgram("open", name);
  } catch (error) {
    const holder = error instanceof CommandError && existsSync(name) ? findLockHolder(name) : "";
    throw holder === "" ? error : new CommandError(`${errorMessage(error)}; ${openInMessage(holder)}`);
  }
}

/** @type {import("../core/adapter/session_launch.js").Host} the debugger's host; the type describes each function */
export const host = {
  nameOf: (name, folder) => {
    const path = isAbsolute(name) ? name : resolve(folder || ".", name);
    return toSlashes(existsSync(path) ? realpathSync(path) : path);
  },
  resolveFrom: (name, other) => toSlashes(join(dirname(other), name)),
  read: (name) => {
    try {
      return readUserText(name);
    } catch {
      return null;
    }
  },
  readErrorMessage: (name) => {
    try {
      readUserText(name);
      return "";
    } catch (error) {
      return errorMessage(error);
    }
  },
  fileExists: existsSync,
  isInside: (name, folder) => !existsSync(name) || isInside(name, folder),
  open: async (name) => new SessionFile(name, await openSessionFile(name)),
  create: async (name) => new SessionFile(name, await openProgram("new", name)),
  readSession: async (name) => readUnlocked(name, MAX_SESSION_BYTES),
  pause: () => new Promise((finish) => {
    setImmediate(finish);
  }),
};
