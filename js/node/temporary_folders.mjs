// Temporary folders for commands. The folders are in memory if possible, private to the user, and removed when the process exits.
import { accessSync, constants, mkdtempSync, rmSync } from "node:fs";
import { tmpdir } from "node:os";
import { join } from "node:path";
import { cannotMakeFolderMessage } from "../words/commands.js";
import { CommandError } from "./output.mjs";

/** @type {Set<string>} the folders to remove when the process exits */
const folders = new Set();

process.on("exit", () => {
  for (const folder of folders) rmSync(folder, { recursive: true, force: true });
});

/** Returns the folder for temporary files: the folder that TMPDIR names, or a folder in memory if possible. */
export function findTemporaryRoot() {
  if (process.env.TMPDIR) return process.env.TMPDIR;
  try {
    accessSync("/dev/shm", constants.W_OK);
    return "/dev/shm";
  } catch {
    return tmpdir();
  }
}

/**
 * Creates a temporary folder. Returns its path. Throws an error if the folder cannot be created.
 * @param {string} name the beginning of the folder's name
 */
export function createTemporaryFolder(name) {
  const root = findTemporaryRoot();
  try {
    const folder = mkdtempSync(join(root, `${name}.`));
    folders.add(folder);
    return folder;
  } catch {
    throw new CommandError(cannotMakeFolderMessage(root));
  }
}

/**
 * Removes a temporary folder.
 * @param {string} folder
 */
export function removeFolder(folder) {
  rmSync(folder, { recursive: true, force: true });
  folders.delete(folder);
}
