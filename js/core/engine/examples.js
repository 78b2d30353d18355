// Defines the example projects that a new session can load.

import { sentText } from "../text/sendable_text.js";

/**
 * An example. `lines` are console lines that the page suggests to the user; if there are none, the program starts at once. `tests` and
 * `properties` are the test text and the properties text. `project` is the text of a project file, or "". If an example has a project file,
 * its session is loaded from that file and starts paused. `story` is a guided tour, which help/story.js reads.
 * @typedef {{ name: string, title: string, board: string, program: string, tests: string, properties: string, lines: string,
 *   project: string, story?: string }} Example
 */

/**
 * Returns the lines that load the board and program of an example into a session.
 * @param {Example} example
 */
export function exampleLines({ board, program }) {
  return (board ? `wire\n${sentText(board, "#")}.\n` : "") + (program ? `asm\n${sentText(program, ";")}.\n` : "");
}

/**
 * Returns whether the machine starts at once in a new session with an example.
 * @param {Example} example
 */
export function startsRunning({ program, lines }) {
  return program !== "" && lines === "";
}
