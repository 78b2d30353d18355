// Determines the kind of a text (program, board, tests, properties or project file), and finds the project, board and program of a text.

import { MAX_PROJECT_TOML_BYTES, PROJECT_FILE, listNamedFiles, readProjectToml } from "../project/project_toml.js";
import { readBoardText } from "../text/board_reader.js";
import { MAX_STORED_LENGTH } from "../text/sendable_text.js";
import * as say from "../../words/server.js";

/**
 * @typedef {import("./open_text.js").OpenText} OpenText
 * @typedef {import("../text/sendable_text.js").TextError} TextError
 *
 * A function that returns the text of a file. It returns null if the file cannot be read, or is outside the folder of the project that
 * names the file (`folder`, "" for none).
 * @typedef {(uri: string, folder: string) => string | null} ReadText
 *
 * The URIs of a project folder and its files.
 * @typedef {{ folder: string, board: string, program: string, tests: string[], properties: string[] }} Project
 *
 * The URIs of the files that a test or property file depends on. `folder` is the URI of the project folder, "" for none.
 * @typedef {Omit<Project, "properties">} Dependencies
 *
 * The URI of a board, and the folder of the project that names the board ("" for none).
 * @typedef {{ uri: string, folder: string }} NamedBoard
 */

const TEST_FILES = /\.test$/i;
const PROPERTY_FILES = /\.props$/i;
/** Matches the names of files that are not programs. */
const NON_PROGRAM_FILES = /\.(test|props|txt|mcsp|mcs|md|json|toml|[ch])$/i;
const TOML_FILES = /\.toml$/i;
/** Matches the names of files that cannot be boards. */
export const NON_BOARD_FILES = /\.(asm|4004|test|props)$/i;
/** The names of the TOML tables that occur only in boards. */
const BOARD_TABLES = ["rom", "ram", "chain", "lamp"];

/** The maximum number of folders to search for a project, upwards from the folder of the text. */
const MAX_FOLDERS = 8;

/**
 * Returns the URI of a file in a folder.
 * @param {string} folder the folder URI, which ends with `/`
 * @param {string} path the path relative to the folder
 */
export function uriInFolder(folder, path) {
  return folder + path.split("/").map(encodeURIComponent).join("/");
}

/**
 * Returns the URI of a file's folder, which ends with `/`.
 * @param {string} uri
 */
export function parentFolder(uri) {
  return uri.replace(/[^/]*$/, "");
}

/**
 * Returns whether a URI names a project file.
 * @param {string} uri
 */
export function isProjectFile(uri) {
  return uri.endsWith(`/${PROJECT_FILE}`);
}

/**
 * Parses a project file. If the file is too long, returns only an error about its length.
 * @param {string} text
 * @returns {ReturnType<typeof readProjectToml>}
 */
export function readProject(text) {
  const { length } = text;
  if (length <= MAX_PROJECT_TOML_BYTES) return readProjectToml(text);
  return { names: null, errors: [{ number: 0, line: 1, from: 0, to: 0, words: say.tooLongMessage(length, MAX_PROJECT_TOML_BYTES) }] };
}

/**
 * Returns the errors in a project file; if there are none, an error for each missing file.
 * @param {string} uri
 * @param {string} text
 * @param {ReadText} readText
 * @returns {TextError[]}
 */
export function findProjectErrors(uri, text, readText) {
  const { names, errors } = readProject(text);
  if (!names) return errors;
  const folder = parentFolder(uri);
  const missingFiles = listNamedFiles(names).filter(({ path }) => readText(uriInFolder(folder, path), folder) === null);
  return missingFiles.map(({ path, key, line, from, to }) => (
    { number: 0, line, from, to, words: say.noFileMessage(key, path) }));
}

/**
 * Returns the project of a text. Searches the folder of the text and the folders above it, and uses the first valid project file. Returns
 * null if there is none.
 * @param {string} uri
 * @param {ReadText} readText
 * @returns {Project | null}
 */
export function findProject(uri, readText) {
  let folder = parentFolder(uri);
  for (let foldersLeft = MAX_FOLDERS; foldersLeft > 0 && folder.split("/").length > 4; foldersLeft--) {
    const project = findProjectInFolder(folder, readText);
    if (project) return project;
    folder = parentFolder(folder.slice(0, -1));
  }
  return null;
}

/**
 * Returns the project in a folder; null if the folder has no valid project file.
 * @param {string} folder the folder URI, which ends with `/`
 * @param {ReadText} readText
 * @returns {Project | null}
 */
export function findProjectInFolder(folder, readText) {
  const text = readText(folder + PROJECT_FILE, "");
  const { names } = text === null ? { names: null } : readProject(text);
  if (!names) return null;
  const uriOf = (/** @type {{ path: string }} */ { path }) => uriInFolder(folder, path);
  const [tests, properties] = [names.tests.map(uriOf), names.properties.map(uriOf)];
  return { folder, board: uriOf(names.board), program: uriOf(names.program), tests, properties };
}

/**
 * Returns the board of a program: the board that the project names, or else `board.toml` in the folder of the program.
 * @param {string} uri
 * @param {ReadText} readText
 * @returns {NamedBoard}
 */
export function findBoard(uri, readText) {
  const project = findProject(uri, readText);
  return project ? { uri: project.board, folder: project.folder } : { uri: uriInFolder(parentFolder(uri), "board.toml"), folder: "" };
}

/**
 * Returns the files that a test or property file depends on. Without a project, these are `board.toml` and the program with the same base
 * name, in the same folder. `tests` are the project's test files up to this file, because its tests can start at states that earlier files
 * save.
 * @param {string} uri
 * @param {ReadText} readText
 * @returns {Dependencies}
 */
export function findDependencies(uri, readText) {
  const project = findProject(uri, readText);
  if (!project) {
    const folder = parentFolder(uri);
    const [program, alternativeProgram] = [".asm", ".4004"].map((ending) => uri.replace(/\.[^./]*$/, ending));
    const isAlternative = readText(program, "") === null && readText(alternativeProgram, "") !== null;
    return { folder: "", board: uriInFolder(folder, "board.toml"), program: isAlternative ? alternativeProgram : program, tests: [uri] };
  }
  const { folder, board, program, tests } = project;
  const index = tests.indexOf(uri);
  return { folder, board, program, tests: index < 0 ? [uri] : tests.slice(0, index + 1) };
}

/**
 * Returns whether a text is a board: a TOML text that has the name `board.toml` or contains a table of a board.
 * @param {OpenText} openText
 */
export function isBoard({ uri, language, text }) {
  if ((!TOML_FILES.test(uri) && language !== "toml") || isProjectFile(uri)) return false;
  if (uri.endsWith("/board.toml")) return true;
  if (text.length > MAX_STORED_LENGTH) return false;
  return readBoardText(text).entries.some(({ table }) => BOARD_TABLES.includes(table));
}

/**
 * Returns whether a text is a program: any text whose name does not belong to another kind.
 * @param {OpenText} openText
 */
export function isProgram({ uri, language }) {
  return language !== "toml" && !NON_PROGRAM_FILES.test(uri);
}

/**
 * Returns whether a text is a test file.
 * @param {OpenText} openText
 */
export function isTestFile({ uri, language }) {
  return language === "mcs4-test" || TEST_FILES.test(uri);
}

/**
 * Returns whether a text is a property file.
 * @param {OpenText} openText
 */
export function isPropertyFile({ uri, language }) {
  return language === "mcs4-props" || PROPERTY_FILES.test(uri);
}
