// Completes lines at the prompt of `mcs4 new` and `mcs4 open`.

import { ANSWER_FORMATS } from "../bench/answer_table.js";
import { readBoard, readItems } from "../bench/answers.js";
import { POKE_PLACE_NAMES, TRACE_PLACE_NAMES } from "../bench/line_forms.js";
import { indices } from "../bench/numbers.js";

/**
 * The candidate words, and the part at the end of the line that the chosen word replaces.
 * @typedef {[string[], string]} Completion
 */

/**
 * The callbacks of completion.
 * @typedef {object} CompletionCallbacks
 * @property {(prefix: string) => string[]} files Returns the file names that start with a prefix.
 * @property {(line: string) => Promise<string[]>} ask Resolves to the bench's answers to a line. Does not print them.
 */

/** The first words of the lines that the prompt executes itself, without the bench. (`exit`, another word for `quit`, is not proposed.) */
export const PROMPT_WORDS = ["help", "source", "quit"];
/** The first words of the lines that can end with a file name. */
export const FILE_WORDS = ["wire", "asm", "map", "wiring", "errors", "source"];
/** The additional topics of `help`. */
const HELP_WORDS = ["places"];

/** @type {(words: string[], prefix: string) => string[]} returns the words that start with a prefix */
const filterByPrefix = (words, prefix) => words.filter((word) => word.startsWith(prefix));
/** @type {(count: number) => string[]} returns the numbers from 0 to `count` - 1 as words */
const listNumbers = (count) => indices(count).map(String);

/**
 * A function that resolves to the candidate words for the argument at an index.
 * @typedef {(argumentIndex: number, ask: (line: string) => Promise<string[]>) => Promise<string[]>} ArgumentWords
 */

/** @type {(words: string[]) => ArgumentWords} proposes words only for the first argument */
const proposeFirstArgument = (words) => async (argumentIndex) => (argumentIndex === 0 ? words : []);
/** @type {ArgumentWords} proposes row numbers for the first argument, and column numbers for the second */
const proposeKeyPosition = async (argumentIndex, ask) => {
  const { rows, columns } = readBoard(await ask("board"));
  return argumentIndex > 1 ? [] : listNumbers(argumentIndex === 0 ? rows : columns);
};

/**
 * The functions that propose arguments, by the first word of the line.
 * @type {Record<string, ArgumentWords>}
 */
const ARGUMENT_COMPLETIONS = {
  help: proposeFirstArgument([...ANSWER_FORMATS.keys(), ...PROMPT_WORDS, ...HELP_WORDS]),
  poke: proposeFirstArgument(POKE_PLACE_NAMES),
  trace: async (argumentIndex) => (argumentIndex > 0 ? TRACE_PLACE_NAMES : []),
  test: proposeFirstArgument(["0", "1"]),
  press: proposeKeyPosition,
  release: proposeKeyPosition,
  ram: async (argumentIndex, ask) => (argumentIndex > 0 ? [] : readBoard(await ask("board")).banks.map(({ bank }) => String(bank))),
  unbreak: async (argumentIndex, ask) => (argumentIndex > 0 ? [] : readItems((await ask("breaks"))[0]).map((word) => `0x${word}`)),
  unwatch: async (argumentIndex, ask) => (
    argumentIndex > 0 ? [] : readItems((await ask("watches"))[0]).map((word) => word.replace(".", " 0x"))),
};

/**
 * Resolves to the completions of a line.
 * @param {string} line the line up to the cursor
 * @param {CompletionCallbacks} callbacks
 * @returns {Promise<Completion>}
 */
export async function completeLine(line, callbacks) {
  const [, first] = /^[ \t]*(\S*)$/.exec(line) || [];
  if (first !== undefined) return [filterByPrefix([...ANSWER_FORMATS.keys(), ...PROMPT_WORDS], first).map((word) => `${word} `), first];
  const [, word, unfinishedName] = /** @type {RegExpExecArray} */ (/^[ \t]*(\S+)[ \t]+(.*)$/.exec(line));
  if (FILE_WORDS.includes(word)) return [callbacks.files(unfinishedName), unfinishedName];
  const words = line.trimStart().split(/[ \t]+/);
  const unfinishedWord = /** @type {string} */ (words.pop());
  const findArgumentWords = ARGUMENT_COMPLETIONS[word];
  const isKnown = ANSWER_FORMATS.has(word) || word === "help";
  const candidates = isKnown && findArgumentWords ? await findArgumentWords(words.length - 1, callbacks.ask) : [];
  return [filterByPrefix(candidates, unfinishedWord), unfinishedWord];
}
