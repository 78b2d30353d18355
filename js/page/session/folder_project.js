// Reads the texts of a project folder for a new session.

import { ProjectError, readProject } from "../../core/project/project_folder.js";
import { MAX_PROJECT_TOML_BYTES, PROJECT_FILE } from "../../core/project/project_toml.js";
import { UnusableFile, readOpenedFile } from "../../core/session/opened_file.js";
import { MAX_PROJECT_BYTES } from "../../core/session/project_file.js";
import * as say from "../../words/session.js";

/**
 * @typedef {import("./folder_files.js").Folder} Folder
 * @typedef {import("../../core/engine/examples.js").Example} Example
 * @typedef {import("../../core/session/opened_file.js").FileTexts} FileTexts
 *
 * The contents of a project folder. `speed` is the speed that the project requests, or "". `message` is a message about the files that
 * were not read, or "".
 * @typedef {{ texts: Example, speed: string, message: string }} FolderTexts
 */

/**
 * Resolves to the bytes of a file. Reads at most one byte more than `limit`, so that the caller can detect a file that is too long.
 * @param {File} file
 * @param {number} limit
 */
async function readBytes(file, limit) {
  return new Uint8Array(await file.slice(0, limit + 1).arrayBuffer());
}

/**
 * Resolves to the text in the folder's file at `path`, or to "" if there is no such file. Rejects if the file does not contain a text of
 * this kind.
 * @param {Map<string, File>} files
 * @param {string} path
 * @param {"board" | "program" | "tests" | "properties"} kind
 */
async function readText(files, path, kind) {
  const file = files.get(path);
  if (!file) return "";
  const contents = readOpenedFile(path, await readBytes(file, MAX_PROJECT_BYTES));
  const text = contents.kind === "texts" ? contents.texts[kind] : null;
  if (text === null) throw new UnusableFile(say.noTextMessage(path, kind.endsWith("s") ? kind : `a ${kind}`));
  return text;
}

/**
 * Returns a message about the files that were not read, or "" if all were read. A session has only one text of each kind, so the other
 * files of that kind are omitted.
 * @param {string[][]} pathLists the paths of the project's test files, and of its property files
 */
function describeOmittedFiles(pathLists) {
  const omittedPaths = pathLists.flatMap((paths) => paths.slice(1));
  return omittedPaths.length === 0 ? "" : say.textsOmitted(omittedPaths.join(", "), omittedPaths.length === 1);
}

/**
 * Resolves to the texts of a project folder. Rejects if the folder is not a project, or if one of its files has the wrong contents.
 * @param {Folder} folder
 * @returns {Promise<FolderTexts>}
 */
export async function readFolderTexts({ name, files }) {
  const projectFile = files.get(PROJECT_FILE);
  if (!projectFile) throw new ProjectError(PROJECT_FILE, say.NO_PROJECT_FILE);
  /** @type {(path: string) => string} */
  const checkPath = (path) => (files.has(path) ? "" : say.noFileMessage(path));
  const { board, program, tests, properties, speed } = readProject(await readBytes(projectFile, MAX_PROJECT_TOML_BYTES), checkPath);
  const texts = {
    name: name || program.replace(/^.*\//, "").replace(/\.[^.]*$/, ""),
    title: "",
    board: await readText(files, board, "board"),
    program: await readText(files, program, "program"),
    tests: await readText(files, tests[0], "tests"),
    properties: await readText(files, properties[0], "properties"),
    lines: "",
    project: "",
  };
  return { texts, speed, message: describeOmittedFiles([tests, properties]) };
}
