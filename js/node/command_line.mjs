// Parses the arguments of a command as described in the command table, runs the command, and reports errors. The exit status is 0 for success, 1 for
// an error or a failed test, and 2 for wrong arguments.
import { parseArgs } from "node:util";
import * as say from "../words/commands.js";
import { COMMANDS } from "./commands/table.mjs";
import { CommandError, UsageError, print, printError } from "./output.mjs";

/**
 * @typedef {import("./commands/table.mjs").Command} Command
 * @typedef {import("./commands/table.mjs").Values} Values
 */

const FAILED_STATUS = 1;
const WRONG_ARGUMENTS_STATUS = 2;
/** @type {import("./commands/table.mjs").Option} */
const HELP_OPTION = { type: "boolean", short: "h" };

/**
 * Resolves to the words that are most similar to a mistyped word. The first call loads the module that compares words.
 * @param {string} word
 * @param {string[]} words
 */
async function findSuggestions(word, words) {
  const { findSimilarWords } = await import("../core/text/similar_words.js");
  return findSimilarWords(word, words);
}

/**
 * Resolves to the error for an unknown option.
 * @param {string} word the option as typed
 * @param {Command["options"]} options
 */
async function createUnknownOptionError(word, options) {
  const isLong = word.startsWith("--");
  const suggestions = isLong ? await findSuggestions(word.slice(2), Object.keys(options)) : [];
  return new UsageError(say.noOptionMessage(word, suggestions.map((name) => `--${name}`)));
}

/**
 * @type {(value: string | undefined, isInline: boolean) => boolean} true if an option has no value or an empty value, or if its value is
 *   the next argument and looks like another option
 */
const lacksValue = (value, isInline) => value === undefined || value === "" || (!isInline && /^-[^\d]/.test(value));

/**
 * Throws a UsageError if an option is unknown, lacks its value, or has a value although it accepts none.
 * @param {{ name: string, rawName: string, value?: string, inlineValue?: boolean }} token
 * @param {Command["options"]} options
 */
async function checkOption({ name, rawName, value, inlineValue }, options) {
  const option = options[name];
  if (!option) throw await createUnknownOptionError(rawName, options);
  if (option.type === "boolean" && value !== undefined) throw new UsageError(say.noValueMessage(rawName));
  if (option.type === "string" && lacksValue(value, inlineValue === true)) {
    throw new UsageError(say.valueMissing(option.value || name.toUpperCase(), rawName));
  }
}

/**
 * Resolves to the options and the other arguments of a command. Throws a UsageError if they are wrong.
 * @param {Command} command
 * @param {string[]} words
 * @returns {Promise<{ values: Values, positionals: string[] }>}
 */
async function parseCommandLine(command, words) {
  /** @type {Command["options"]} */
  const options = { help: HELP_OPTION, ...command.options };
  const { values, positionals, tokens } = parseArgs({ args: words, options, strict: false, allowPositionals: true, tokens: true });
  const seenOptions = new Set();
  for (const token of tokens) {
    if (token.kind !== "option") continue;
    await checkOption(token, options);
    if (seenOptions.has(token.name) && !options[token.name].multiple) throw new UsageError(say.optionRepeated(token.rawName));
    seenOptions.add(token.name);
  }
  return { values, positionals };
}

/**
 * Prints an error message. Each line starts with the command's name.
 * @param {string} name
 * @param {string} message
 */
function printErrorLines(name, message) {
  printError(message.split("\n").map((line) => `${name}: ${line}\n`).join(""));
}

/**
 * Reports an error and resolves to the exit status. If there is no room for temporary files, reports that instead of the error. Rethrows an
 * unexpected error.
 * @param {string} name
 * @param {unknown} error
 */
async function reportError(name, error) {
  if (error instanceof UsageError) {
    const { formatUsageText } = await import("./command_help.mjs");
    printErrorLines(name, error.message);
    printError(`${formatUsageText(name)}\n`);
    return WRONG_ARGUMENTS_STATUS;
  }
  const { findRoomError } = await import("./native_program.mjs");
  const roomError = findRoomError();
  if (roomError) printErrorLines(name, roomError);
  else if (error instanceof CommandError) printErrorLines(name, error.message);
  else throw error;
  return FAILED_STATUS;
}

/**
 * Runs a command with its arguments. Resolves to the exit status.
 * @param {string} name
 * @param {string[]} words
 * @param {Command["load"]} [load]
 */
export async function runCommand(name, words, load = COMMANDS[name].load) {
  const command = COMMANDS[name];
  try {
    const { values, positionals } = await parseCommandLine(command, words);
    if (values.help) {
      const { formatCommandHelp } = await import("./command_help.mjs");
      print(formatCommandHelp(name));
      return 0;
    }
    const { run } = await load();
    return await run(values, positionals);
  } catch (error) {
    return reportError(name, error);
  }
}

/**
 * Reports an unknown command. Resolves to the exit status.
 * @param {string} word
 */
async function rejectCommand(word) {
  const names = [...Object.keys(COMMANDS), ...Object.keys(say.BUILT_IN_COMPLETIONS)];
  printErrorLines("mcs4", say.noCommandMessage(word, await findSuggestions(word, names)));
  return WRONG_ARGUMENTS_STATUS;
}

/**
 * Prints the help of a command, or of mcs4 if no command is named. Resolves to the exit status.
 * @param {string[]} words
 */
async function printHelp([name, ...extraWords]) {
  const { formatCommandHelp, formatMcs4Help, formatMcs4Usage } = await import("./command_help.mjs");
  if (extraWords.length > 0) {
    printErrorLines("mcs4", say.extraArgument(extraWords[0]));
    printError(`${formatMcs4Usage()}\n`);
    return WRONG_ARGUMENTS_STATUS;
  }
  const isAboutMcs4 = name === undefined || Object.hasOwn(say.BUILT_IN_COMPLETIONS, name);
  if (!isAboutMcs4 && !Object.hasOwn(COMMANDS, name)) return rejectCommand(name);
  const { TOP } = await import("./top_folder.mjs");
  try {
    print(isAboutMcs4 ? formatMcs4Help(TOP) : formatCommandHelp(name));
    return 0;
  } catch (error) {
    return reportError("mcs4", error);
  }
}

/**
 * Runs a command line of `mcs4`. Resolves to the exit status.
 * @param {string[]} words
 */
export async function runLine([name = "", ...words]) {
  if (Object.hasOwn(COMMANDS, name)) return runCommand(name, words);
  if (name === "help") return printHelp(words);
  if (name !== "" && name !== "version") return rejectCommand(name);
  const { formatMcs4Usage } = await import("./command_help.mjs");
  if (name === "version") printErrorLines("mcs4", say.extraArgument(words[0]));
  printError(`${formatMcs4Usage()}\n`);
  return WRONG_ARGUMENTS_STATUS;
}
