// Parses project files (`mcs4.toml`), which name the board, program, tests and properties of a project.

import { readBoardText } from "../text/board_reader.js";
import { SPEEDS } from "../time/speeds.js";
import * as say from "../../words/server.js";

/**
 * @typedef {import("../text/board_reader.js").Key} Key
 * @typedef {import("../text/board_reader.js").Value} Value
 * @typedef {import("../text/sendable_text.js").TextError} TextError
 *
 * A path in a project file, with its TOML key, its line, and the columns at which its text starts and ends. Lines count from 1, columns
 * from 0.
 * @typedef {{ path: string, key: string, line: number, from: number, to: number }} NamedFile
 *
 * The contents of a project file. `speed` is "" if the file does not set it.
 * @typedef {{ board: NamedFile, program: NamedFile, tests: NamedFile[], properties: NamedFile[], speed: string }} ProjectNames
 */

export const PROJECT_FILE = "mcs4.toml";
/** The maximum length of a project file, in bytes. */
export const MAX_PROJECT_TOML_BYTES = 16384;

const SPEED_NAMES = SPEEDS.map(({ id }) => `"${id}"`);
/** The descriptions of the TOML keys in a project file, for error messages. */
const KEY_TEXTS = new Map([
  ["board", say.BOARD_SYNTAX],
  ["program", say.PROGRAM_SYNTAX],
  ["tests", say.TESTS_SYNTAX],
  ["properties", say.PROPERTIES_SYNTAX],
  ["speed", say.speedSyntax(SPEED_NAMES.slice(0, -1).join(", "), SPEED_NAMES[SPEED_NAMES.length - 1])],
]);
const LIST_KEYS = ["tests", "properties"];
const REQUIRED_KEYS = ["board", "program"];

/**
 * Returns an error in a range of the project file.
 * @param {{ line: number, from: number, to: number }} range
 * @param {string} message
 * @returns {TextError}
 */
function errorAt({ line, from, to }, message) {
  return { number: 0, line, from, to, words: message };
}

/**
 * Returns the error message for an invalid path; "" for a valid path.
 * @param {string} key
 * @param {string} path
 */
function findPathError(key, path) {
  if (path === "") return say.emptyPath(key, KEY_TEXTS.get(key));
  // eslint-disable-next-line no-control-regex
  if (/[\u0000-\u001f\u007f]/.test(path)) return say.pathHasControlCharacter(key);
  if (path.includes("\\")) return say.pathHasBackslash(key);
  if (path.startsWith("/")) return say.noPathMessage(path, key);
  if (path.split("/").includes("..")) return say.pathLeadsOut(path, key);
  return "";
}

/**
 * Returns the errors in a key and its value.
 * @param {Key} key
 * @returns {TextError[]}
 */
function findKeyErrors({ name, line, from, to, value }) {
  const description = KEY_TEXTS.get(name);
  if (!description) return [errorAt({ line, from, to }, say.noKeyMessage(name))];
  const { inner } = value;
  const values = LIST_KEYS.includes(name) && Array.isArray(inner) ? inner : [value];
  if (LIST_KEYS.includes(name) !== Array.isArray(inner)) return [errorAt(value, description)];
  return values.flatMap((element) => {
    if (typeof element.inner !== "string") return [errorAt(element, description)];
    if (name === "speed") return SPEEDS.some(({ id }) => id === element.inner) ? [] : [errorAt(element, description)];
    const message = findPathError(name, element.inner);
    return message ? [errorAt(element, message)] : [];
  });
}

/**
 * Returns an error for each repetition of a known key.
 * @param {Key[]} keys
 * @returns {TextError[]}
 */
function findDuplicateKeys(keys) {
  /** @type {Map<string, number>} */
  const lines = new Map();
  return keys.flatMap((key) => {
    const firstLine = lines.get(key.name);
    if (firstLine === undefined) lines.set(key.name, key.line);
    return firstLine === undefined || !KEY_TEXTS.has(key.name) ? [] : [errorAt(key, say.keyRepeated(key.name, firstLine))];
  });
}

/**
 * Returns the files that a key names; an empty list if the key is missing.
 * @param {Key[]} keys
 * @param {string} name
 * @returns {NamedFile[]}
 */
function listFilesForKey(keys, name) {
  const key = keys.find((candidate) => candidate.name === name);
  if (!key) return [];
  const values = Array.isArray(key.value.inner) ? key.value.inner : [key.value];
  return values.map(({ inner, line, from, to }) => ({ path: String(inner), key: name, line, from, to }));
}

/**
 * Parses a project file. Returns its contents; or, if the file has errors, null and the errors in the order of their lines.
 * @param {string} text
 * @returns {{ names: ProjectNames | null, errors: TextError[] }}
 */
export function readProjectToml(text) {
  const { entries, plainKeys, keys, errors: tomlErrors } = readBoardText(text.replace(/^\uFEFF/, ""));
  // `plainKeys` does not contain the keys whose value is an empty list, because the board reader omits them.
  const emptyLists = keys.filter(({ value: { inner } }) => Array.isArray(inner) && inner.length === 0);
  const errors = [
    ...tomlErrors.map((error) => ({ ...error, number: 0 })),
    ...entries.map((entry) => errorAt(entry, say.NO_TABLES)),
    ...[...plainKeys, ...emptyLists].flatMap(findKeyErrors),
    ...findDuplicateKeys(keys),
  ];
  if (errors.length === 0) {
    const missingKeys = REQUIRED_KEYS.filter((name) => !keys.some((key) => key.name === name));
    errors.push(...missingKeys.map((name) => errorAt({ line: 1, from: 0, to: 0 }, say.keyMissing(name, KEY_TEXTS.get(name)))));
  }
  if (errors.length > 0) return { names: null, errors: errors.sort((one, other) => one.line - other.line) };
  const [[board], [program], tests, properties] = ["board", "program", ...LIST_KEYS].map((name) => listFilesForKey(keys, name));
  const speed = keys.find(({ name }) => name === "speed");
  return { names: { board, program, tests, properties, speed: speed ? String(speed.value.inner) : "" }, errors: [] };
}

/**
 * Returns all files that a project file names: board, program, tests, properties.
 * @param {ProjectNames} names
 */
export function listNamedFiles({ board, program, tests, properties }) {
  return [board, program, ...tests, ...properties];
}
