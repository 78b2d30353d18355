// Finds the files of the bench's projects, and the arguments with which mcs4 runs a test file. A file belongs to a project if its folder contains
// board.toml, or if its folder or a parent folder contains mcs4.toml.
"use strict";
const { existsSync, readFileSync } = require("node:fs");
const { dirname, join } = require("node:path");

const PROJECT_FILE = "mcs4.toml";

/**
 * Returns the innermost project folder that contains a file, or "" if there is none.
 * @param {string} file
 */
function findProjectFolder(file) {
  for (let folder = dirname(file); ; folder = dirname(folder)) {
    if (existsSync(join(folder, PROJECT_FILE))) return folder;
    if (folder === dirname(folder)) return "";
  }
}

/**
 * Returns true if a file belongs to a project of the bench.
 * @param {string} file
 */
function belongsToProject(file) {
  return existsSync(join(dirname(file), "board.toml")) || findProjectFolder(file) !== "";
}

/**
 * Returns the test files that a project's mcs4.toml lists, in the same order. Does not check mcs4.toml for errors, because the bench does
 * that.
 * @param {string} folder
 */
function listProjectTests(folder) {
  const text = readFileSync(join(folder, PROJECT_FILE), "utf8").replace(/^[ \t]*#.*$/gm, "");
  const [, list = ""] = /^[ \t]*tests[ \t]*=[ \t]*(\[[^\]]*\]|"[^"\n]*"|'[^'\n]*')/m.exec(text) || [];
  return (list.match(/"[^"\n]*"|'[^'\n]*'/g) || []).map((quoted) => join(folder, ...quoted.slice(1, -1).split("/")));
}

/**
 * Returns the arguments with which mcs4 runs a test file. The test files before this one in the project run first, because they can define
 * steps that this file uses. The last results in the output belong to this file. Without a project, mcs4 uses the board in the file's
 * folder and the program with the file's name.
 * @param {string} file
 */
function testArguments(file) {
  const folder = findProjectFolder(file);
  if (folder !== "") {
    const tests = listProjectTests(folder);
    const index = tests.indexOf(file);
    return ["test", "-C", folder, ...(index < 0 ? [file] : tests.slice(0, index + 1))];
  }
  const programs = [".asm", ".4004"].map((extension) => file.replace(/\.[^.\\/]*$/, extension));
  return ["test", join(dirname(file), "board.toml"), programs.find((program) => existsSync(program)) || programs[0], file];
}

module.exports = { PROJECT_FILE, belongsToProject, findProjectFolder, testArguments };
