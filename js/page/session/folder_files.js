// Reads the files in a dropped folder, or a selection of files that includes a project file.

import { PROJECT_FILE } from "../../core/project/project_toml.js";

/** @typedef {{ name: string, files: Map<string, File> }} Folder a folder's files, by their paths in the folder */

/** The limits for reading a folder: the number of files, and the depth of subfolders. No project needs more. */
const MAX_FILES = 400;
const MAX_DEPTH = 6;

/**
 * Returns the folders among the dropped items. Must be called while the browser handles the drop event.
 * @param {DataTransfer | null} data
 * @returns {FileSystemDirectoryEntry[]}
 */
export function getDroppedFolders(data) {
  const fileItems = (data ? [...data.items] : []).filter((item) => item.kind === "file" && item.webkitGetAsEntry);
  const entries = fileItems.map((item) => item.webkitGetAsEntry());
  return entries.flatMap((entry) => (entry && entry.isDirectory ? [/** @type {FileSystemDirectoryEntry} */ (entry)] : []));
}

/**
 * Resolves to the entries of a folder, which the browser returns in batches. Reads no more batches after MAX_FILES entries.
 * @param {FileSystemDirectoryEntry} folder
 * @returns {Promise<FileSystemEntry[]>}
 */
async function readEntries(folder) {
  const reader = folder.createReader();
  /** @type {FileSystemEntry[]} */
  const entries = [];
  for (;;) {
    /** @type {FileSystemEntry[]} */
    const batch = await new Promise((resolve, reject) => { reader.readEntries(resolve, reject); });
    if (batch.length === 0 || entries.length > MAX_FILES) return entries;
    entries.push(...batch);
  }
}

/**
 * Adds the files of a folder and of its subfolders to `files`, by path. Skips subfolders below MAX_DEPTH and subfolders whose names begin
 * with a dot. Stops at MAX_FILES files.
 * @param {FileSystemDirectoryEntry} folder
 * @param {string} pathPrefix the folder's path in the dropped folder, with a trailing slash
 * @param {Map<string, File>} files
 * @param {number} depth
 */
async function collectFiles(folder, pathPrefix, files, depth) {
  for (const entry of await readEntries(folder)) {
    if (files.size >= MAX_FILES) return;
    const path = pathPrefix + entry.name;
    if (entry.isFile) {
      const fileEntry = /** @type {FileSystemFileEntry} */ (entry);
      files.set(path, await new Promise((resolve, reject) => { fileEntry.file(resolve, reject); }));
    } else if (depth < MAX_DEPTH && !entry.name.startsWith(".")) {
      await collectFiles(/** @type {FileSystemDirectoryEntry} */ (entry), `${path}/`, files, depth + 1);
    }
  }
}

/**
 * @param {FileSystemDirectoryEntry} entry
 * @returns {Promise<Folder>}
 */
export async function readFolder(entry) {
  /** @type {Map<string, File>} */
  const files = new Map();
  await collectFiles(entry, "", files, 0);
  return { name: entry.name, files };
}

/**
 * Returns several files as a folder if one of them is a project file, otherwise returns null.
 * @param {File[]} files
 * @returns {Folder | null}
 */
export function folderFromFiles(files) {
  const isProject = files.length > 1 && files.some(({ name }) => name === PROJECT_FILE);
  return isProject ? { name: "", files: new Map(files.map((file) => [file.name, file])) } : null;
}
