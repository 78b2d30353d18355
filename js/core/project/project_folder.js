// Reads a project from its folder. All files that the project file names must exist.

import { MAX_PROJECT_TOML_BYTES, PROJECT_FILE, listNamedFiles, readProjectToml } from "./project_toml.js";
import * as say from "../../words/server.js";

/**
 * @typedef {import("./project_toml.js").ProjectNames} ProjectNames
 *
 * A project: the paths of its files, relative to the project folder. `speed` is "" if the project file does not set it.
 * @typedef {{ board: string, program: string, tests: string[], properties: string[], speed: string }} ProjectFolder
 *
 * A function that checks whether a path names a file in the project folder. Returns an error message, "" for a valid path.
 * @typedef {(path: string) => string} CheckFile
 */

/** The error that is thrown for a folder that is not a valid project. Its message names the file, the line and the reason. */
export class ProjectError extends Error {
  /**
   * @param {string} file
   * @param {string} reason
   * @param {number} line 0 if the error is not in a line
   */
  constructor(file, reason, line = 0) {
    super(line > 0 ? `${file}: line ${line}: ${reason}` : `${file}: ${reason}`);
    this.file = file;
    this.reason = reason;
    this.line = line;
  }
}

/**
 * Checks the bytes of a project file before they are decoded as text. Returns an error message, or "" if there is none.
 * @param {Uint8Array} bytes
 */
function findBytesError(bytes) {
  if (bytes.length === 0) return say.PROJECT_FILE_IS_EMPTY;
  const { length } = bytes;
  if (length > MAX_PROJECT_TOML_BYTES) return say.tooLongMessage(length, MAX_PROJECT_TOML_BYTES);
  return bytes.includes(0) ? say.CONTAINS_NUL : "";
}

/**
 * Returns the file paths and the speed of a project.
 * @param {ProjectNames} names
 * @returns {ProjectFolder}
 */
function listSettings({ board, program, tests, properties, speed }) {
  const listPaths = (/** @type {{ path: string }[]} */ files) => files.map(({ path }) => path);
  return { board: board.path, program: program.path, tests: listPaths(tests), properties: listPaths(properties), speed };
}

/**
 * Returns the file paths and the speed in a project file. Throws ProjectError for the first error.
 * @param {Uint8Array} bytes
 * @param {CheckFile} checkFile
 * @param {string} file the file name for error messages
 * @returns {ProjectFolder}
 */
export function readProject(bytes, checkFile, file = PROJECT_FILE) {
  const message = findBytesError(bytes);
  if (message) throw new ProjectError(file, message);
  const { names, errors } = readProjectToml(new TextDecoder().decode(bytes));
  if (!names) throw new ProjectError(file, errors[0].words, errors[0].line);
  for (const { path, key, line } of listNamedFiles(names).sort((one, other) => one.line - other.line)) {
    const error = checkFile(path);
    if (error) throw new ProjectError(file, `${key}: ${error}`, line);
  }
  return listSettings(names);
}
