// Replaces names in bench lines: `@NAME` becomes the value of a name in the program, and `set PLACE = VALUE` becomes the lines that set the
// place. Text after a line, such as a program after `asm`, does not change.

import { compileSetting } from "../conditions/set_command.js";
import { opensText, stripCarriageReturn } from "./inputs.js";
import { hex } from "./numbers.js";
import * as say from "../../words/bench.js";
import { errorInColumn } from "../../words/conditions.js";

/**
 * @typedef {import("../machine/source_map.js").SourceMap} SourceMap
 *
 * The lines after the replacement. If a line has an error, `message` is the first error message and `line` is its line number; otherwise
 * they are "" and 0.
 * @typedef {{ lines: string, message: string, line: number }} ReplacedLines
 */

const NAME_REFERENCE = /(^|[ \t])@([^ \t]*)/g;
const SET_LINE = /^\s*set(?!\S)(.*)$/;

/**
 * Replaces the names and the `set` lines in bench lines, but not in the text after lines such as `asm`.
 * @param {string} lines
 * @param {SourceMap | null} map the source map of the program in ROM; null if unknown
 * @returns {ReplacedLines}
 */
export function replaceNames(lines, map) {
  let [message, errorLine] = ["", 0];
  let isTextOpen = false;
  /** @type {(error: string, lineNumber: number) => void} */
  const reportError = (error, lineNumber) => {
    if (message === "" && error !== "") [message, errorLine] = [error, lineNumber];
  };
  /** @type {(text: string, lineNumber: number) => string} */
  const replaceInLine = (text, lineNumber) => {
    const setMatch = SET_LINE.exec(text);
    if (!setMatch) return replaceNamesIn(text, lineNumber);
    const { lines: settingLines, error, column } = compileSetting(setMatch[1], map);
    reportError(error && `${errorInColumn(error, column + text.length - setMatch[1].length)}.`, lineNumber);
    return settingLines.trimEnd();
  };
  /** @type {(text: string, lineNumber: number) => string} */
  const replaceNamesIn = (text, lineNumber) => text.replace(NAME_REFERENCE, (match, before, name) => {
    const value = map ? map.findValue(name) : undefined;
    if (value !== undefined) return `${before}0x${hex(value, 3)}`;
    reportError(`${match.trim()}: ${map ? say.NO_SUCH_NAME : say.NAMES_UNKNOWN}.`, lineNumber);
    return match;
  });
  const replacedLines = lines.split("\n").map((rawLine, index) => {
    const text = stripCarriageReturn(rawLine);
    const isInText = isTextOpen;
    isTextOpen = isTextOpen ? text !== "." : opensText(text);
    return isInText ? rawLine : replaceInLine(text, index + 1);
  });
  return { lines: replacedLines.join("\n"), message, line: errorLine };
}
