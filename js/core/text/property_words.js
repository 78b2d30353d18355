// Finds the help and the completions for properties texts, in the manual's tables and among the names of the board and the program.

import { toCompletions } from "./completion.js";
import {
  completeWord, findDescription, formsByTable, listFirstWords, listNextConditionWords, readConditionForms, wordsUpTo,
} from "./test_words.js";
import * as say from "../../words/text.js";

/**
 * @typedef {import("../help/manual.js").ManualSection} ManualSection
 * @typedef {import("./completion.js").Completion} Completion
 * @typedef {import("./completion.js").CompletionItem} CompletionItem
 * @typedef {import("./test_words.js").Form} Form
 * @typedef {import("./test_words.js").TestNames} TestNames
 *
 * The forms of the lines and conditions that a properties text can contain.
 * @typedef {{ lines: Form[], conditions: Form[] }} PropertyForms
 */

/** The titles of the manual sections that list the forms of property lines. */
const SECTIONS = [say.INPUTS_TITLE, say.PROPERTIES_TITLE];
/** Matches the first word of a line in which a condition follows that word. */
const CONDITION_START = /^(never|always|reach)$/;
/** The first words of the conditions that are allowed in tests but not in properties. */
const TEST_ONLY_WORDS = new Set(["cycles", "printed", "test", "key"]);
/** The words that can follow a condition. */
const WORDS_AFTER_CONDITION = ["for", "only after"];
/**
 * The words that can follow a label at the start of a line (WORDS_AFTER_LABEL), and those that can follow the label after `to`
 * (WORDS_AFTER_TARGET).
 */
const WORDS_AFTER_LABEL = ["to", say.ONCE_FOR_EACH_PRESS, "only after"];
const WORDS_AFTER_TARGET = ["within"];
/** The words of a line `no press below TIME reaches @LABEL` before and after the time. */
const WORDS_BEFORE_TIME = ["press", "below"];
const WORD_AFTER_TIME = "reaches";

/**
 * Returns the forms of the lines and conditions of properties texts, as the manual lists them.
 * @param {ManualSection[]} manual
 * @returns {PropertyForms}
 */
export function readPropertyForms(manual) {
  const lines = SECTIONS.flatMap((title) => formsByTable(manual, title).flat());
  return { lines, conditions: readConditionForms(manual).filter(({ word }) => !TEST_ONLY_WORDS.has(word)) };
}

/**
 * Returns an initial properties text for a board.
 * @param {TestNames} names
 */
export function createInitialProperties({ keys, lamps }) {
  const [lamp = "0"] = lamps;
  const firstLines = `${say.FIRST_PROPERTIES}${keys.length === 0 ? "test\n" : ""}`;
  return `${firstLines}wait 1 ms to 20 ms\nnote lamps\n\nreach lamp ${lamp} on\nreach lamp ${lamp} off\n`;
}

/**
 * Returns the words of the condition in a line; null if the line has no condition.
 * @param {string[]} words
 */
function findCondition(words) {
  const [first, ...conditionWords] = words;
  if (CONDITION_START.test(first || "")) return conditionWords;
  return first === "at" && conditionWords.length > 0 ? conditionWords.slice(1) : null;
}

/**
 * Returns the words that can come next in a line that starts with a label.
 * @param {string[]} words the words of the line so far
 */
function listWordsAfterLabel([, secondWord, ...laterWords]) {
  if (secondWord === undefined) return WORDS_AFTER_LABEL;
  return secondWord === "to" && laterWords.length === 1 ? WORDS_AFTER_TARGET : [];
}

/**
 * Returns the words that can come next in a line that starts with `no`.
 * @param {string[]} words the words after `no` so far
 * @param {CompletionItem[]} labels
 */
function listWordsAfterNo(words, labels) {
  if (words.length < WORDS_BEFORE_TIME.length) return toCompletions([WORDS_BEFORE_TIME.slice(words.length).join(" ")]);
  const lastWords = words.slice(WORDS_BEFORE_TIME.length);
  if (lastWords.length === 0) return [];
  return lastWords.includes(WORD_AFTER_TIME) ? labels : toCompletions([WORD_AFTER_TIME]);
}

/**
 * Returns the words with which the user can complete the last word of a line.
 * @param {string[]} previousWords the words before the unfinished word
 * @param {string} unfinishedWord
 * @param {TestNames} names
 * @param {PropertyForms} forms
 * @returns {CompletionItem[]}
 */
function listNextWords(previousWords, unfinishedWord, names, { lines, conditions }) {
  const labels = toCompletions(names.labels.map((label) => `@${label}`));
  if (unfinishedWord.startsWith("@")) return labels;
  if (previousWords.length === 0) return [...listFirstWords(lines.filter(({ word }) => /^[a-z]+$/.test(word))), ...labels];
  const last = previousWords[previousWords.length - 1];
  if (previousWords[0] === "no") return listWordsAfterNo(previousWords.slice(1), labels);
  if (previousWords[0] === "press" || last === "press") return toCompletions(names.keys);
  if (previousWords[0].startsWith("@")) return toCompletions(listWordsAfterLabel(previousWords));
  const condition = findCondition(previousWords);
  if (condition) return listNextConditionWords(condition, names, conditions, WORDS_AFTER_CONDITION);
  return previousWords[0] === "note" ? toCompletions(["lamps"]) : [];
}

/**
 * Returns the completions at a position in a properties text.
 * @param {string[]} lines
 * @param {number} line the line number from 0
 * @param {number} column
 * @param {TestNames} names
 * @param {PropertyForms} forms
 * @returns {Completion}
 */
export function completeProperty(lines, line, column, names, forms) {
  return completeWord(lines[line], column, (previousWords, unfinishedWord) => listNextWords(previousWords, unfinishedWord, names, forms));
}

/**
 * Returns the help for the word at a position; "" if there is none.
 * @param {string[]} lines
 * @param {number} line the line number from 0
 * @param {number} column
 * @param {PropertyForms} forms
 */
export function helpForProperty(lines, line, column, forms) {
  const words = wordsUpTo(lines[line], column);
  if (words.length === 0) return "";
  const form = words.length === 1 && forms.lines.find(({ word }) => word === words[0]);
  return form ? `${form.form}: ${form.effect}` : findDescription(forms.conditions, words[words.length - 1]);
}
