// The help of commands for a terminal, generated from the command table and from js/words/commands.js.
import { wrapText } from "../core/text/line_wrapping.js";
import * as say from "../words/commands.js";
import { COMMANDS } from "./commands/table.mjs";

/** The maximum length of a line, in characters. */
const WIDTH = 79;
const INDENT = "  ";
const DEEP_INDENT = INDENT.repeat(3);

/** @type {Record<string, import("../words/commands.js").CommandWords>} the help of each command, by command name */
export const HELP_TEXTS = say.COMMAND_WORDS;

/** @type {(text: string, firstIndent?: string, otherIndent?: string) => string} wraps text; the first line begins with `firstIndent` */
const foldText = (text, firstIndent = "", otherIndent = firstIndent) => wrapText(text, WIDTH, firstIndent, otherIndent);

/**
 * Splits text into paragraphs, and joins the lines of each paragraph into one.
 * @param {string} text
 */
export function splitParagraphs(text) {
  return text.split(/\n[ ]*\n/).map((paragraph) => paragraph.trim().replace(/\s+/g, " "));
}

/**
 * Returns the usage lines of a command: the forms of the command line that it accepts.
 * @param {string} name
 */
export function listUsageLines(name) {
  return COMMANDS[name].usage.map((form) => `mcs4 ${name}${form && ` ${form}`}`);
}

/**
 * Returns the usage text of a command.
 * @param {string} name
 */
export function formatUsageText(name) {
  return say.formatUsage(listUsageLines(name));
}

/** Returns the usage text of mcs4. */
export function formatMcs4Usage() {
  return say.formatUsage(say.MCS4_USAGE.map(([form]) => form).filter((form) => !form.endsWith("refusals")));
}

/**
 * Returns a row for each option of a command: the option as the user types it, and its description.
 * @param {string} name
 */
export function listOptionRows(name) {
  const { options: descriptions } = HELP_TEXTS[name];
  const rows = Object.entries(COMMANDS[name].options).map(([option, { short, value }]) => (
    [`${short ? `-${short}, ` : ""}--${option}${value ? ` ${value}` : ""}`, descriptions[option]]));
  return [...rows, ["-h, --help", say.HELP_OPTION]];
}

/** @type {(heading: string, rows: string[][]) => string} formats a heading and a list of entries, each with its description below it */
const formatList = (heading, rows) => (
  `${heading}\n${rows.map(([word, description]) => `${INDENT}${word}\n${foldText(description, DEEP_INDENT)}`).join("\n")}`);

/** @type {(heading: string, lines: string[]) => string} formats a list of items with a heading */
const formatItems = (heading, lines) => `${heading}\n${lines.map((line) => foldText(line, INDENT, DEEP_INDENT)).join("\n")}`;

/**
 * Returns the help of a command.
 * @param {string} name
 */
export function formatCommandHelp(name) {
  const { text, examples, status } = HELP_TEXTS[name];
  return `${[
    formatUsageText(name),
    ...splitParagraphs(text).map((paragraph) => foldText(paragraph)),
    formatList(say.OPTIONS_HEADING, listOptionRows(name)),
    formatList(say.EXAMPLES_HEADING, examples),
    formatItems(say.STATUS_HEADING, status),
  ].join("\n\n")}\n`;
}

/** Returns the title of each group of commands, and the commands of the group with their descriptions. */
export function groupCommands() {
  const commands = Object.entries(COMMANDS).map(([name, { group }]) => ({ name, group, description: HELP_TEXTS[name].summary }));
  return Object.entries(say.GROUPS).map(([groupName, title]) => ({ title, commands: commands.filter(({ group }) => group === groupName) }));
}

/**
 * Returns the help of `mcs4` itself.
 * @param {string} top the folder of mcs4; "" omits the location of the manual
 */
export function formatMcs4Help(top) {
  const width = Math.max(...say.MCS4_USAGE.map(([form]) => form.length));
  const groups = groupCommands().map(({ title, commands }) => (
    `${title}:\n${commands.map(({ name, description }) => foldText(description, `${INDENT}${name.padEnd(9)} `, " ".repeat(12))).join("\n")}`));
  return `${[
    `usage:\n${say.MCS4_USAGE.map(([form, description]) => `${INDENT}${form.padEnd(width)}  ${description}`).join("\n")}`,
    ...splitParagraphs(say.MCS4_TEXT).map((paragraph) => foldText(paragraph)),
    ...groups,
    formatItems(say.STATUS_HEADING, say.MCS4_STATUS),
    formatItems(say.ENVIRONMENT_HEADING, say.MCS4_ENVIRONMENT),
    ...(top === "" ? [] : [say.manualLocation(top)]),
  ].join("\n\n")}\n`;
}
