// Completion of file names at a prompt.
import { readdirSync, statSync } from "node:fs";
import { homedir } from "node:os";
import { join } from "node:path";
import { escapeControls } from "../core/text/control_escapes.js";

/** The maximum number of completions. */
const MAX_COMPLETIONS = 1000;

/**
 * Replaces a leading `~` in a path with the home folder.
 * @param {string} name
 */
export function expandTilde(name) {
  return name === "~" || name.startsWith("~/") ? homedir() + name.slice(1) : name;
}

/**
 * Returns true if a name refers to a folder. Returns false if there is no such folder, or if it cannot be read.
 * @param {string} name
 */
function isFolder(name) {
  try {
    return statSync(name).isDirectory();
  } catch {
    return false;
  }
}

/**
 * Returns the first MAX_COMPLETIONS paths that start with a prefix; none if the folder cannot be read. The path of a folder ends with a
 * slash. Hidden files are included only if the prefix includes their initial dot. Names with control characters are omitted.
 * @param {string} prefix
 */
export function completePath(prefix) {
  const nameStart = prefix.lastIndexOf("/") + 1;
  const [folder, name] = [prefix.slice(0, nameStart), prefix.slice(nameStart)];
  const folderPath = expandTilde(folder) || ".";
  try {
    const isMatching = (/** @type {string} */ file) => (
      file.startsWith(name) && (name.startsWith(".") || !file.startsWith(".")) && escapeControls(file) === file);
    return readdirSync(folderPath).filter(isMatching).sort().slice(0, MAX_COMPLETIONS)
      .map((file) => `${folder}${file}${isFolder(join(folderPath, file)) ? "/" : ""}`);
  } catch {
    return [];
  }
}
