// Converts a project to files in a folder, so that other programs can edit them. Parses the files with breakpoints and watch expressions.

import { joinLines } from "../bench/inputs.js";
import { parseBreakpoint, formatBreakpoints } from "../debug/breakpoint_lines.js";
import { MAX_BREAKPOINTS } from "../debug/breakpoints.js";
import { InvalidProject } from "./project_file.js";
import * as say from "../../words/session.js";

/**
 * @typedef {import("../debug/breakpoints.js").SavedBreakpoint} SavedBreakpoint
 * @typedef {import("./project_file.js").Project} Project
 *
 * A file in the folder, with its content as a string or as bytes.
 * @typedef {{ name: string, content: string | Uint8Array }} ProjectPart
 */

/** The names of the files in a project folder. If a folder has no `mcs4.toml`, these names identify its texts. */
export const PROJECT_FILE_NAMES = {
  project: "mcs4.toml", board: "board.toml", program: "program.asm", tests: "program.test", properties: "program.props",
  breakpoints: "breakpoints", values: "values", session: "session.mcs", name: "name",
};

/**
 * Returns the text of the project file `mcs4.toml`.
 * @param {Project} project
 */
function formatProjectFile({ testText, propertiesText }) {
  const { board, program, tests, properties } = PROJECT_FILE_NAMES;
  const values = {
    board, program, ...(testText ? { tests: [tests] } : {}), ...(propertiesText ? { properties: [properties] } : {}),
  };
  return joinLines([say.ABOUT_PROJECT_FILE, ...Object.entries(values).map(([key, value]) => [key, JSON.stringify(value)].join(" = "))]);
}

/**
 * Returns the files of a project. Empty files are omitted, except the board and the program.
 * @param {Project} project
 * @returns {ProjectPart[]}
 */
export function splitProject(project) {
  const { name, boardText, programText, testText = "", propertiesText = "", breakpoints = [], watched = [], file } = project;
  const texts = [
    { name: PROJECT_FILE_NAMES.tests, content: testText },
    { name: PROJECT_FILE_NAMES.properties, content: propertiesText },
    { name: PROJECT_FILE_NAMES.breakpoints, content: joinLines(formatBreakpoints(breakpoints)) },
    { name: PROJECT_FILE_NAMES.values, content: joinLines(watched) },
  ];
  return [
    { name: PROJECT_FILE_NAMES.project, content: formatProjectFile(project) },
    { name: PROJECT_FILE_NAMES.board, content: boardText },
    { name: PROJECT_FILE_NAMES.program, content: programText },
    ...texts.filter(({ content }) => content !== ""),
    { name: PROJECT_FILE_NAMES.session, content: file },
    { name: PROJECT_FILE_NAMES.name, content: `${name || say.UNNAMED_SESSION}\n` },
  ];
}

/**
 * Splits text into lines, without their line ends.
 * @param {string} text
 */
function splitLines(text) {
  const lines = text.split("\n").map((line) => line.replace(/\r$/, ""));
  if (lines[lines.length - 1] === "") lines.pop();
  return lines;
}

/**
 * Parses the file with the breakpoints. Throws InvalidProject if a line is not a breakpoint, or if there are too many breakpoints.
 * @param {string} text
 * @returns {SavedBreakpoint[]}
 */
export function parseBreakpoints(text) {
  const breakpoints = splitLines(text).map((line, index) => {
    const breakpoint = parseBreakpoint(line);
    if (!breakpoint) throw new InvalidProject(say.noBreakpointMessage(index + 1));
    return breakpoint;
  });
  const { length } = breakpoints;
  if (length > MAX_BREAKPOINTS) throw new InvalidProject(say.tooManyBreakpointsMessage(length, MAX_BREAKPOINTS));
  return breakpoints;
}

/**
 * Parses the file with the watch expressions, one per line. Throws InvalidProject if a line is blank.
 * @param {string} text
 */
export function parseWatchLines(text) {
  const values = splitLines(text);
  const emptyIndex = values.findIndex((line) => line.trim() === "");
  if (emptyIndex >= 0) throw new InvalidProject(say.emptyValue(emptyIndex + 1));
  return values;
}
