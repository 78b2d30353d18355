// Checks whether the commands of a session are the first commands of a script, and counts the script lines that contain these commands.

import { matchScriptAnswers } from "./script_answers.js";
import { findInputEnd, opensText } from "./inputs.js";
import { indices } from "./numbers.js";
import { PAGE_NUMBERS, listQueries } from "./rom_bytes.js";
import * as say from "../../words/bench.js";

/**
 * @typedef {import("../engine/engine_host.js").EngineHost} EngineHost
 * @typedef {import("../engine/engine_host.js").State} State
 *
 * The number of script lines that a session has received. If the commands of the session are not the first commands of the script,
 * `message` is an error message. `differingLines` then lists the differing answers: `<` marks the answers of the session, `>` those of the
 * script.
 * @typedef {{ lineCount: number, message: string, differingLines: string[] }} ScriptComparison
 */

const BANK_COUNT = 8;
/** The minimum length of a piece of a script, in characters. Between two pieces, the user can interrupt the work. */
const MIN_PIECE_LENGTH = 4096;
/** The maximum number of lines in the list of differing lines. */
const MAX_DIFFERING_LINES = 4;
/** The queries whose answers must be the same in the session and in a new session that has executed the script lines. */
const COMPARED_QUERIES = `seq\nboard\nstate\n${indices(BANK_COUNT).map((bank) => `ram ${bank}\n`).join("")}${listQueries(PAGE_NUMBERS)}`;

/**
 * Splits each answer to `state` into lines, one for each value with its name. Returns these lines and the other answers, in order.
 * @param {string[]} answers
 */
function splitStateAnswers(answers) {
  return answers.flatMap((answer) => {
    const [word, ...keysAndValues] = answer.split(" ");
    if (word !== "state") return [answer];
    return indices(Math.floor(keysAndValues.length / 2)).map((index) => `${keysAndValues[2 * index]} ${keysAndValues[2 * index + 1]}`);
  });
}

/**
 * Returns the first lines that differ, at most MAX_DIFFERING_LINES. `<` marks a line of `actual`, `>` a line of `expected`. If the lists
 * differ in length, returns the lines between the common prefix and the common suffix.
 * @param {string[]} actual
 * @param {string[]} expected
 */
export function findDifferingLines(actual, expected) {
  const differs = (/** @type {number} */ index) => actual[index] !== expected[index];
  if (actual.length === expected.length) {
    const differingIndexes = indices(actual.length).filter(differs).slice(0, MAX_DIFFERING_LINES / 2);
    return [...differingIndexes.map((index) => `< ${actual[index]}`), ...differingIndexes.map((index) => `> ${expected[index]}`)];
  }
  const minLength = Math.min(actual.length, expected.length);
  const prefix = indices(minLength).find(differs) ?? minLength;
  const differsAtEnd = (/** @type {number} */ distance) => (
    actual[actual.length - 1 - distance] !== expected[expected.length - 1 - distance]);
  const suffix = indices(minLength - prefix).find(differsAtEnd) ?? minLength - prefix;
  const actualLines = actual.slice(prefix, actual.length - suffix).map((line) => `< ${line}`);
  return [...actualLines, ...expected.slice(prefix, expected.length - suffix).map((line) => `> ${line}`)].slice(0, MAX_DIFFERING_LINES);
}

/**
 * Returns the number of script lines after which `commandCount` commands have been accepted; -1 if the script has fewer accepted commands.
 * @param {import("./script_answers.js").AnsweredInput[]} inputs
 * @param {number} commandCount
 */
function countLinesUpTo(inputs, commandCount) {
  let acceptedCount = 0;
  let lineCount = 0;
  for (const { input, lineNumber, answer } of inputs) {
    if (acceptedCount === commandCount) break;
    if (answer.startsWith("ok ")) acceptedCount += 1;
    lineCount = opensText(input.line) ? lineNumber + input.text.length + 1 : lineNumber;
  }
  return acceptedCount === commandCount ? lineCount : -1;
}

/**
 * Executes lines in a new session, in pieces. Resolves to the final state and the answers.
 * @param {EngineHost} engine
 * @param {string} lines
 * @param {() => Promise<any>} yieldToMessages called after each piece
 */
async function serveScript(engine, lines, yieldToMessages) {
  const state = engine.begin();
  /** @type {string[]} */
  const answers = [];
  for (let offset = 0; offset < lines.length;) {
    const end = findInputEnd(lines, offset, MIN_PIECE_LENGTH);
    for (const answer of engine.serve(state, lines.slice(offset, end), state).answers) answers.push(answer);
    offset = end;
    await yieldToMessages();
  }
  return { state, answers };
}

/**
 * Compares a session with a new session that has accepted the same number of commands from the script.
 * @param {EngineHost} engine
 * @param {State} state the state of the session
 * @param {string} script
 * @param {() => Promise<any>} yieldToMessages called after each piece of long work
 * @returns {Promise<ScriptComparison>}
 */
export async function compareWithScript(engine, state, script, yieldToMessages) {
  const { openingAnswer, answers: actualAnswers } = engine.ask(state, COMPARED_QUERIES);
  const commandCount = Number(openingAnswer.slice("session ".length));
  const fullRun = await serveScript(engine, script, yieldToMessages);
  const { inputs, message } = matchScriptAnswers(script, ["session 0", ...fullRun.answers]);
  if (message !== "") return { lineCount: 0, message, differingLines: [] };
  const lineCount = countLinesUpTo(inputs, commandCount);
  if (lineCount < 0) {
    const acceptedCount = inputs.filter(({ answer }) => answer.startsWith("ok ")).length;
    return { lineCount: 0, message: say.tooManyCommandsMessage(commandCount, acceptedCount), differingLines: [] };
  }
  const partialScript = script.split("\n").slice(0, lineCount).map((line) => `${line}\n`).join("");
  const partialRun = await serveScript(engine, partialScript, yieldToMessages);
  const expectedAnswers = engine.ask(partialRun.state, COMPARED_QUERIES).answers;
  const differingLines = findDifferingLines(splitStateAnswers(actualAnswers), splitStateAnswers(expectedAnswers));
  return { lineCount, message: differingLines.length > 0 ? say.answersDiffer(commandCount) : "", differingLines };
}
