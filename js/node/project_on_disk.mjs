// Reads the `mcs4.toml` of a project folder on disk for the Node tools, and checks that the files that it names exist.
import { existsSync, statSync } from "node:fs";
import { join } from "node:path";
import { ProjectError, readProject } from "../core/project/project_folder.js";
import { PROJECT_FILE } from "../core/project/project_toml.js";
import { linkLeadsOut } from "../words/server.js";
import { MAX_USER_TEXT, isInside, readUserFile, statInput } from "./user_files.mjs";

/**
 * Returns an error message if a path does not name a file in a folder, otherwise "".
 * @param {string} folder
 * @param {string} path the path of the file, relative to the folder
 */
export function findPathError(folder, path) {
  const fullPath = join(folder, path);
  if (!existsSync(fullPath)) return `there is no file ${path}`;
  if (statSync(fullPath).isDirectory()) return `${path} is a folder, not a file`;
  return isInside(fullPath, folder) ? "" : linkLeadsOut(path);
}

/** @typedef {ReturnType<typeof readProjectFolder>} DiskProject */

/**
 * Returns the project in a folder. The paths in the result are relative to the current folder. Throws a ProjectError with file, line and message.
 * @param {string} folder
 */
export function readProjectFolder(folder) {
  const file = join(folder, PROJECT_FILE);
  const stat = statInput(file);
  if (!stat) throw new ProjectError(file, "there is no such file; it names the files of a project");
  if (!stat.isFile()) throw new ProjectError(file, "it is not a file");
  const project = readProject(readUserFile(file, MAX_USER_TEXT), (path) => findPathError(folder, path), file);
  const pathInFolder = (/** @type {string} */ path) => join(folder, path);
  return {
    ...project,
    folder,
    file,
    board: pathInFolder(project.board),
    program: pathInFolder(project.program),
    tests: project.tests.map(pathInFolder),
    properties: project.properties.map(pathInFolder),
  };
}
