// Finds the help and the completions for test texts, in the manual's tables and among the names of the board and the program.

import { splitCell, cellText } from "../help/manual.js";
import { toCompletions } from "./completion.js";
import * as say from "../../words/text.js";

/**
 * @typedef {import("../help/manual.js").ManualSection} ManualSection
 * @typedef {import("./completion.js").Completion} Completion
 * @typedef {import("./completion.js").CompletionItem} CompletionItem
 *
 * The names that a test can use: key and lamp names of the board, and labels of the program.
 * @typedef {{ keys: string[], lamps: string[], labels: string[] }} TestNames
 *
 * A form of a line or condition, as the manual writes it (`form`), with its first word and its description (`effect`).
 * @typedef {{ word: string, form: string, effect: string }} Form
 *
 * The forms of the lines (`steps`) and conditions of a test.
 * @typedef {{ steps: Form[], conditions: Form[] }} TestForms
 */

/**
 * Returns the forms in the rows of a manual table. A row can contain several forms.
 * @param {string[][]} rows the cells of each row: the forms, and their description
 * @returns {Form[]}
 */
function parseForms(rows) {
  return rows.flatMap(([forms, effect]) => splitCell(forms).filter(({ isCode }) => isCode).map(({ text }) => (
    { word: text.split(" ", 1)[0], form: text, effect: cellText(effect) })));
}

/**
 * Returns the forms in a section of the manual: a list for each table, or no lists if there is no such section.
 * @param {ManualSection[]} manual
 * @param {string} title
 */
export function formsByTable(manual, title) {
  const section = manual.find((candidate) => candidate.title === title);
  return section ? section.tables.map(({ rows }) => parseForms(rows)) : [];
}

/**
 * Returns the forms of conditions in the manual, including conditions that only some kinds of text allow.
 * @param {ManualSection[]} manual
 */
export function readConditionForms(manual) {
  const [forms] = formsByTable(manual, say.CONDITIONS);
  return forms || [];
}

/**
 * Returns the forms of test lines and conditions in the manual.
 * @param {ManualSection[]} manual
 * @returns {TestForms}
 */
export function readTestForms(manual) {
  const [steps] = formsByTable(manual, say.LINES_OF_TEST);
  return { steps: steps || [], conditions: readConditionForms(manual) };
}

/**
 * Returns the first words of the forms as completions. Each word occurs once.
 * @param {Form[]} forms
 * @returns {CompletionItem[]}
 */
export function listFirstWords(forms) {
  const words = new Map(forms.map((form) => [form.word, form]));
  return [...words.values()].map(({ word, form, effect }) => ({ text: word, description: `${form.slice(word.length)}   ${effect}` }));
}

/**
 * Returns the words with which the user can complete the last word of a line.
 * @param {string[]} previousWords the words before the unfinished word
 * @param {string} unfinishedWord
 * @param {TestNames} names
 * @param {TestForms} forms
 * @returns {CompletionItem[]}
 */
function listNextWords(previousWords, unfinishedWord, { keys, lamps, labels }, forms) {
  const [first] = previousWords;
  if (first === undefined) return listFirstWords(forms.steps);
  if (first === "press" || first === "release" || first === "keys") return toCompletions(keys);
  if (first !== "until" && first !== "expect") return [];
  if (unfinishedWord.startsWith("@")) return toCompletions(labels.map((label) => `@${label}`));
  return listNextConditionWords(previousWords.slice(1), { keys, lamps, labels }, forms.conditions, ["within"]);
}

/** The words that join conditions. */
const CONJUNCTIONS = new Set(["and", "or", "&&", "||"]);

/**
 * Returns the words that can come next in a condition.
 * @param {string[]} previousWords the words of the condition so far
 * @param {TestNames} names
 * @param {Form[]} conditions the forms of conditions
 * @param {string[]} nextKeywords the words that can follow a complete condition
 * @returns {CompletionItem[]}
 */
export function listNextConditionWords(previousWords, { keys, lamps, labels }, conditions, nextKeywords) {
  const start = previousWords.reduce((last, word, index) => (CONJUNCTIONS.has(word) ? index + 1 : last), 0);
  const words = previousWords.slice(start).map((word) => word.replace(/^[(!]+/, "")).filter((word) => word !== "not" && word !== "");
  const conjunctions = ["and", "or", ...nextKeywords];
  if (words.length === 0) return [...listFirstWords(conditions), ...toCompletions(labels.map((label) => `@${label}`))];
  const [word] = words;
  if (word === "lamp") return toCompletions(words.length === 1 ? lamps : ["on", "off", ...conjunctions]);
  if (word === "key") return toCompletions(words.length === 1 ? keys : ["down", "up", ...conjunctions]);
  if (word === "at" && words.length === 1) return toCompletions(labels);
  return toCompletions(word === "lamps" ? [...lamps, "none", ...conjunctions] : conjunctions);
}

/**
 * Returns the completions of the unfinished word before the caret.
 * @param {string} line
 * @param {number} column the column of the caret
 * @param {(previousWords: string[], unfinishedWord: string) => CompletionItem[]} findWords returns the words that can complete the
 *   unfinished word
 * @returns {Completion}
 */
export function completeWord(line, column, findWords) {
  const textBefore = line.slice(0, column);
  if (/^\s*[#;]/.test(textBefore)) return { from: column, to: column, list: [] };
  const typedMatch = /\S*$/.exec(textBefore) || [""];
  const candidates = findWords(textBefore.slice(0, column - typedMatch[0].length).split(/\s+/).filter(Boolean), typedMatch[0]);
  const matchingWords = candidates.filter(({ text }) => text.startsWith(typedMatch[0]) && text !== typedMatch[0]);
  return { from: column - typedMatch[0].length, to: column, list: matchingWords };
}

/**
 * Returns the completions at a position in a test text.
 * @param {string[]} lines
 * @param {number} line the line number from 0
 * @param {number} column
 * @param {TestNames} names
 * @param {TestForms} forms
 * @returns {Completion}
 */
export function completeTest(lines, line, column, names, forms) {
  const sharedSteps = lines.slice(0, line).flatMap((previousLine) => (/^\s*steps\s+(\S+)\s*$/.exec(previousLine) || []).slice(1));
  return completeWord(lines[line], column, (previousWords, unfinishedWord) => (
    previousWords.length === 1 && previousWords[0] === "do" ? toCompletions(sharedSteps)
      : listNextWords(previousWords, unfinishedWord, names, forms)));
}

/**
 * Returns the words of a line up to and including the word at a column. Returns an empty list if there is no word at the column, or if the
 * line is a comment.
 * @param {string} line
 * @param {number} column
 */
export function wordsUpTo(line, column) {
  const words = [...(line || "").matchAll(/\S+/g)];
  if (words.length === 0 || /^[#;]/.test(words[0][0])) return [];
  const wordIndex = words.findIndex((word) => word.index !== undefined && word.index <= column && column <= word.index + word[0].length);
  return words.slice(0, wordIndex + 1).map(([word]) => word);
}

/**
 * Returns the form that starts with a word, and its description, as one string; "" if there is no such form.
 * @param {Form[]} forms
 * @param {string} word
 */
export function findDescription(forms, word) {
  const matchingForm = forms.find((form) => form.word === word) || forms.find((form) => normalizeWord(form.word) === normalizeWord(word));
  return matchingForm ? `${matchingForm.form}: ${matchingForm.effect}` : "";
}

/**
 * Returns the help for the word at a position; "" if there is none.
 * @param {string[]} lines
 * @param {number} line the line number from 0
 * @param {number} column
 * @param {TestForms} forms
 */
export function helpForTest(lines, line, column, { steps, conditions }) {
  const words = wordsUpTo(lines[line], column);
  if (words.length === 0) return "";
  if (words.length > 1) return /^(until|expect)$/.test(words[0]) ? findDescription(conditions, words[words.length - 1]) : "";
  const form = steps.find(({ word }) => word === words[0]);
  return form ? `${form.form}: ${form.effect}` : "";
}

/**
 * Replaces each number in a word with 0. Also replaces each single capital letter, which stands for a number in the manual, with 0. A label
 * becomes `@`. The results for `ram.1.0x20` and `ram.B.S` are therefore equal.
 * @param {string} word
 */
function normalizeWord(word) {
  return word.replace(/^@.*/, "@").replace(/0x[0-9A-Fa-f]+|\d+|\b[A-Z]\b/g, "0");
}
