// The names, abbreviations and help of the debugger prompt's commands.

import { COMMAND_WORDS } from "../../words/debug_commands.js";
import * as say from "../../words/prompt.js";

/**
 * The help for a command: its name, its abbreviations, its usage, its effect, and further help (`details`, "" for none).
 * @typedef {{ name: string, abbreviations: string[], usage: string, effect: string, details: string }} CommandText
 */

/** @type {CommandText[]} the help for all commands */
export const COMMANDS = COMMAND_WORDS.map(({ names, usage, effect, details }) => {
  const [name, ...abbreviations] = names.split(" ");
  return { name, abbreviations, usage, effect, details };
});

/**
 * Finds a command by its name, an abbreviation or a unique prefix. If no command matches, or more than one, `command` is null and `message`
 * is the error message.
 * @param {string} word
 * @returns {{ command: CommandText | null, message: string }}
 */
export function findCommand(word) {
  const exactMatch = COMMANDS.find(({ name, abbreviations }) => name === word || abbreviations.includes(word));
  if (exactMatch) return { command: exactMatch, message: "" };
  const matchingCommands = COMMANDS.filter(({ name }) => name.startsWith(word));
  if (matchingCommands.length === 1) return { command: matchingCommands[0], message: "" };
  if (matchingCommands.length === 0) return { command: null, message: say.noCommandMessage(word) };
  return { command: null, message: say.ambiguousCommand(word, matchingCommands.map(({ name }) => name).join(", ")) };
}

/**
 * Returns the help for a command, or the list of all commands.
 * @param {string} word the command, or "" for the list
 */
export function commandHelp(word) {
  if (word === "") return COMMANDS.map(({ usage, effect }) => `${usage.padEnd(25)} ${effect}`).join("\n");
  const { command, message } = findCommand(word);
  if (!command) return message;
  const { abbreviations, usage, effect, details } = command;
  const otherNames = abbreviations.length > 0 ? say.otherNames(abbreviations.join(", ")) : "";
  return `${usage}: ${effect}.${details ? ` ${details}` : ""}${otherNames}`;
}
