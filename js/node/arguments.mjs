// Checks the arguments of commands: their number and numeric values. Also finds the project that supplies missing file names.
import { existsSync } from "node:fs";
import * as say from "../words/commands.js";
import { CommandError, UsageError } from "./output.mjs";

const PROJECT_FILE = "mcs4.toml";
/** The names of the arguments that can be empty, because they are not file names. */
const NON_FILE_ARGUMENTS = new Set(["CYCLES", "N", "KEYS", "FIRST", "LAST", "COUNT"]);

/**
 * Throws a UsageError if there are too few or too many arguments, or if a file name is empty.
 * @param {string[]} words
 * @param {string[]} names the argument names in the help; the name of an optional argument ends with a question mark
 * @param {number} max the maximum number of arguments
 * @param {boolean} [hasProject] true if a project can supply the missing file names
 */
export function checkArguments(words, names, max = names.length, hasProject = false) {
  const missingNames = names.slice(words.length).filter((name) => !name.endsWith("?"));
  if (missingNames.length > 0) {
    throw new UsageError(say.argumentsMissing(missingNames, hasProject && words.length === 0 && !existsSync(PROJECT_FILE)));
  }
  if (words.length > max) throw new UsageError(say.extraArgument(words[max]));
  const canBeEmpty = (/** @type {string} */ name) => NON_FILE_ARGUMENTS.has(name.replace("?", ""));
  if (words.some((word, index) => word === "" && !canBeEmpty(names[index] || ""))) throw new UsageError(say.EMPTY_ARGUMENT);
}

/**
 * Parses a decimal number from 1 to `max`. Throws a UsageError for any other text.
 * @param {string} name the name of the argument in the help
 * @param {string} word
 * @param {number} max
 */
export function parseCount(name, word, max) {
  const number = /^[1-9]\d{0,8}$/.test(word) ? Number(word) : 0;
  if (number < 1 || number > max) throw new UsageError(say.notInRangeMessage(name, word, max));
  return number;
}

/**
 * Resolves to the project in a folder. Throws a CommandError if the folder has no valid project. The first call loads the modules that read projects.
 * @param {string} folder
 */
export async function loadProject(folder) {
  const [{ readProjectFolder }, { ProjectError }] = await Promise.all([
    import("./project_on_disk.mjs"), import("../core/project/project_folder.js"),
  ]);
  try {
    return readProjectFolder(folder);
  } catch (error) {
    throw error instanceof ProjectError ? new CommandError(error.message) : error;
  }
}

/**
 * Resolves to the project in `folder` (option `-C`). Without this option, resolves to the project in the current folder if there are fewer than
 * `neededCount` arguments. Resolves to null if there are enough arguments, or if the current folder has no project.
 * @param {string | undefined} folder
 * @param {string[]} words
 * @param {number} neededCount the number of arguments that makes a project unnecessary
 */
export async function findProject(folder, words, neededCount) {
  if (folder === undefined && (words.length >= neededCount || !existsSync(PROJECT_FILE))) return null;
  return loadProject(folder ?? ".");
}

/**
 * Returns the test files or the properties files of a project. Throws a CommandError if the project has none.
 * @param {import("./project_on_disk.mjs").DiskProject} project
 * @param {"tests" | "properties"} kind
 */
export function requireProjectFiles(project, kind) {
  if (project[kind].length === 0) throw new CommandError(say.projectLacks(project.file, kind));
  return project[kind];
}

/**
 * Resolves to the file names of the board, the program and the properties. In a project, `words` contains only the name of a properties file. If
 * `words` is empty, uses the project's own properties file.
 * @param {string | undefined} folder
 * @param {string[]} words
 */
export async function resolveFileNames(folder, words) {
  const project = await findProject(folder, words, 3);
  if (!project) return words;
  if (words.length > 0) return [project.board, project.program, ...words];
  const properties = requireProjectFiles(project, "properties");
  if (properties.length > 1) throw new CommandError(say.nameOneFile(project.file, properties));
  return [project.board, project.program, ...properties];
}

/** Returns a promise that never resolves, for commands that end the process themselves. */
export function waitForExit() {
  return new Promise(() => {});
}
