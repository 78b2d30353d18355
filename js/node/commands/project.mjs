// `mcs4 project`: splits the page's project file into the files of a folder, and joins such files into a project file.
import { existsSync, realpathSync } from "node:fs";
import { basename, join } from "node:path";
import { MAX_PROJECT_BYTES, InvalidProject, projectText, readProject, tooLongMessage } from "../../core/session/project_file.js";
import { PROJECT_FILE_NAMES, parseBreakpoints, splitProject, parseWatchLines } from "../../core/session/project_parts.js";
import { createSessionFile } from "../../core/testing/test_preparation.js";
import * as say from "../../words/commands.js";
import { checkArguments, loadProject } from "../arguments.mjs";
import { MAX_TEXT_BYTES } from "../input_texts.mjs";
import { SESSION_BYTES } from "../native_engine.mjs";
import { endOnSignals, createRejectedTextsError, startEngine } from "../native_program.mjs";
import { CommandError, UsageError } from "../output.mjs";
import { isInside, checkOutputFile, readUserFile, statInput, writeNewFiles, writeUserFile } from "../user_files.mjs";

const PROJECT_HEADER = "fethsaim project ";
const SESSION_HEADER = "MCS4BEN1";
/** The kinds of text files that can occur several times in a folder. A project file can contain only one text of each kind. */
const MULTIPLE_TEXT_KINDS = /** @type {const} */ (["tests", "properties"]);

/**
 * Calls `operation` and returns its result. If `operation` throws InvalidProject, throws an error that also contains the name of the file.
 * @template Result
 * @param {string} name
 * @param {() => Result} operation
 */
function nameFileInErrors(name, operation) {
  try {
    return operation();
  } catch (error) {
    throw error instanceof InvalidProject ? new CommandError(`${name}: ${error.message}`) : error;
  }
}

/**
 * Splits a project file into the files of a new folder.
 * @param {string} name the name of the project file
 * @param {string} folder
 */
function writeProjectFiles(name, folder) {
  const project = nameFileInErrors(name, () => readProject(readUserFile(name, MAX_PROJECT_BYTES), SESSION_BYTES, true));
  writeNewFiles(folder, splitProject(project), Object.values(PROJECT_FILE_NAMES));
}

// --- join ---

/**
 * Returns the contents of a file in a folder. Throws an error if a link leads out of the folder.
 * @param {string} folder
 * @param {string} name the path of the file, including the folder
 */
function readFileIn(folder, name) {
  const bytes = readUserFile(name, MAX_TEXT_BYTES);
  if (!isInside(name, folder)) throw new CommandError(say.leadsOutOf(name, folder));
  return bytes;
}

/**
 * Reads a UTF-8 text file in a folder. Throws an error if the file is not valid UTF-8 or contains NUL bytes.
 * @param {string} folder
 * @param {string} name the path of the file, including the folder
 */
function readText(folder, name) {
  const bytes = readFileIn(folder, name);
  if (bytes.includes(0)) throw new CommandError(say.containsNulMessage(name));
  try {
    return new TextDecoder("utf-8", { fatal: true }).decode(bytes);
  } catch {
    throw new CommandError(say.notUtf8Message(name));
  }
}

/**
 * Resolves to the paths of the board, program, tests and properties that `mcs4.toml` names. Without `mcs4.toml`, resolves to the paths with the
 * standard file names. Throws an error if the project has several files of tests or properties.
 * @param {string} folder
 * @returns {Promise<{ board: string, program: string, tests: string, properties: string }>} "" if there are no tests or no properties
 */
async function findTextPaths(folder) {
  const pathInFolder = (/** @type {string} */ name) => join(folder, name);
  if (!existsSync(pathInFolder(PROJECT_FILE_NAMES.project))) {
    const listPaths = MULTIPLE_TEXT_KINDS.map((kind) => pathInFolder(PROJECT_FILE_NAMES[kind]));
    const [tests, properties] = listPaths.map((path) => (existsSync(path) ? path : ""));
    return { board: pathInFolder(PROJECT_FILE_NAMES.board), program: pathInFolder(PROJECT_FILE_NAMES.program), tests, properties };
  }
  const project = await loadProject(folder);
  for (const kind of MULTIPLE_TEXT_KINDS) {
    const { length } = project[kind];
    if (length > 1) throw new CommandError(say.tooManyTextsMessage(project.file, length, kind));
  }
  return { board: project.board, program: project.program, tests: project.tests[0] || "", properties: project.properties[0] || "" };
}

/**
 * Resolves to the bytes of the session file in a folder. If there is none, creates a new session from the texts. Throws an error if the
 * file is in use or is not a session file, or if the texts have errors.
 * @param {string} folder
 * @param {{ board: string, program: string }} paths the paths of the texts
 * @param {{ boardText: string, programText: string }} texts
 */
async function readSession(folder, paths, texts) {
  const name = join(folder, PROJECT_FILE_NAMES.session);
  if (existsSync(name)) {
    const bytes = readFileIn(folder, name);
    if (!bytes.equals(readFileIn(folder, name))) throw new CommandError(say.sessionInUseMessage(name));
    if (bytes.length === SESSION_BYTES && bytes.toString("latin1").startsWith(SESSION_HEADER)) return bytes;
    throw new CommandError(say.notASessionFileMessage(name));
  }
  const engine = await startEngine();
  const { file, errors } = createSessionFile(engine, texts);
  if (errors.length === 0) return engine.bytesOf(file);
  const makeText = (/** @type {string} */ textName, /** @type {string} */ text) => ({ name: textName, text, linesBefore: 0 });
  const board = makeText(paths.board, texts.boardText);
  const program = makeText(paths.program, texts.programText);
  throw await createRejectedTextsError(engine, { board, program }, errors);
}

/**
 * Returns the name of the project in a folder: the first line of its name file, or the name of the folder if there is no such file. Throws
 * an error if the first line is blank.
 * @param {string} folder
 */
function readProjectName(folder) {
  const file = join(folder, PROJECT_FILE_NAMES.name);
  if (!existsSync(file)) return basename(realpathSync(folder));
  const [name] = readText(folder, file).split(/\r?\n/);
  if (name.trim() === "") throw new CommandError(say.emptySessionNameMessage(file));
  return name;
}

/**
 * Parses the list in a text file of a folder. Returns an empty list if the file does not exist.
 * @template Item
 * @param {string} folder
 * @param {string} fileName
 * @param {(text: string) => Item[]} parse
 */
function readList(folder, fileName, parse) {
  const name = join(folder, fileName);
  return existsSync(name) ? nameFileInErrors(name, () => parse(readText(folder, name))) : [];
}

/**
 * Joins the files in a folder into a project file.
 * @param {string} folder
 * @param {string} name the name of the project file
 */
async function joinFiles(folder, name) {
  if (!statInput(folder)?.isDirectory()) throw new CommandError(say.noFolderMessage(folder));
  checkOutputFile(name, PROJECT_HEADER, say.NOT_A_PROJECT, []);
  const paths = await findTextPaths(folder);
  const [boardText, programText, testText, propertiesText] = [paths.board, paths.program, paths.tests, paths.properties]
    .map((path) => (path === "" ? "" : readText(folder, path)));
  const message = tooLongMessage({ boardText, programText, testText, propertiesText });
  if (message) throw new CommandError(`${folder}: ${message}`);
  const project = {
    name: readProjectName(folder),
    boardText, programText, testText, propertiesText,
    breakpoints: readList(folder, PROJECT_FILE_NAMES.breakpoints, parseBreakpoints),
    watched: readList(folder, PROJECT_FILE_NAMES.values, parseWatchLines),
    file: await readSession(folder, paths, { boardText, programText }),
  };
  writeUserFile(name, projectText(project));
}

/** @type {import("./table.mjs").CommandModule["run"]} */
export async function run(values, [action, ...words]) {
  if (action === undefined) throw new UsageError(say.SPLIT_OR_JOIN_MISSING);
  if (action !== "split" && action !== "join") throw new UsageError(say.neitherSplitNorJoinMessage(action));
  checkArguments(words, action === "split" ? ["FILE", "FOLDER"] : ["FOLDER", "FILE"]);
  const [source, target] = words;
  // A signal must not leave a partially written file.
  endOnSignals();
  if (action === "split") writeProjectFiles(source, target);
  else await joinFiles(source, target);
  return 0;
}
