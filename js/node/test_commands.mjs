// The code that `mcs4 test`, `cover` and `profile` share. Runs tests, or the next cycles of a session, and counts the executed
// instructions.
import { runTests } from "../core/testing/test_suite.js";
import { formatFailureLine } from "../core/testing/tap.js";
import { cannotCombine, programDiffersMessage, sessionStopped } from "../words/commands.js";
import { parseCount, requireProjectFiles, checkArguments, findProject } from "./arguments.mjs";
import { InputTexts } from "./input_texts.mjs";
import { yieldToMessages, createRejectedTextsError, openSession, startEngine } from "./native_program.mjs";
import { CommandError, UsageError, print, printError } from "./output.mjs";

/**
 * @typedef {import("../core/testing/coverage.js").Coverage} Coverage
 * @typedef {import("../core/testing/profile.js").Profile} Profile
 * @typedef {import("../core/testing/test_run.js").Outcome} Outcome
 * @typedef {import("./input_texts.mjs").InputText} InputText
 *
 * The description of a command. `RecorderClass` is the class of its recorder. `checkNames` checks the file names before the files are read.
 * `formatOutcome` formats the result of each test. `printCounts` prints the counts at the end.
 * @typedef {{ name: string, RecorderClass: typeof import("../core/testing/recorders.js").ExecutionRecorder,
 *   checkNames?: (names: string[]) => void, formatOutcome?: (outcome: Outcome, number: number, total: number) => string,
 *   printCounts?: (counts: { coverage: Coverage, profile: Profile }, program: InputText) => void }} TestCommand
 */

/** The maximum number of cycles to run in a session. */
const MAX_CYCLES = 100000000;

/**
 * Resolves to the file names of the board, the program and the tests. In a project, `givenNames` contains only the names of test files. If
 * `givenNames` is empty, the result contains all test files of the project.
 * @param {string | undefined} folder
 * @param {string[]} givenNames
 */
async function resolveNames(folder, givenNames) {
  const project = await findProject(folder, givenNames, 3);
  const testNames = project && givenNames.length === 0 ? requireProjectFiles(project, "tests") : givenNames;
  const names = project ? [project.board, project.program, ...testNames] : testNames;
  checkArguments(names, ["BOARD", "PROGRAM", "TEST"], Infinity, true);
  return names;
}

/**
 * Runs tests, and prints their results. Resolves to the exit status: 0 if all tests pass, otherwise 1. Throws an error if the board or the
 * program is rejected.
 * @param {TestCommand} command
 * @param {string | undefined} folder
 * @param {string[]} givenNames
 */
export async function runTestCommand(command, folder, givenNames) {
  const { RecorderClass, checkNames = () => {}, formatOutcome = () => "", printCounts = () => {} } = command;
  const allNames = await resolveNames(folder, givenNames);
  checkNames(allNames);
  const [boardName, programName, ...names] = allNames;
  const texts = new InputTexts();
  const board = texts.readText(boardName, "wire");
  const program = texts.readText(programName, "asm");
  const sources = names.map((fileName) => texts.readSource(fileName));
  const engine = await startEngine();
  const handleOutcome = (/** @type {Outcome} */ outcome, /** @type {number} */ number, /** @type {number} */ total) => {
    printError(formatFailureLine(outcome));
    print(formatOutcome(outcome, number, total));
  };
  const suite = { boardText: board.text, programText: program.text, sources };
  const options = { RecorderClass, handleOutcome };
  const { errors, outcomes, coverage, profile } = await runTests(engine, suite, yieldToMessages, options);
  if (!coverage || !profile) throw await createRejectedTextsError(engine, { board, program }, errors);
  printCounts({ coverage, profile }, program);
  return outcomes.some(({ failure }) => failure) ? 1 : 0;
}

/**
 * Runs a copy of a session for a number of cycles, and prints the counts. Resolves to the exit status. Throws an error if the program is
 * rejected, or if ROM contains another program.
 * @param {TestCommand} command
 * @param {string} session
 * @param {string[]} givenNames
 */
export async function countCycles({ name, RecorderClass, checkNames = () => {}, printCounts = () => {} }, session, givenNames) {
  checkArguments([session, ...givenNames], ["SESSION", "CYCLES", "PROGRAM"]);
  const [word, programName] = givenNames;
  const cycles = parseCount("CYCLES", word, MAX_CYCLES);
  checkNames([session, programName]);
  const { measureSession } = await import("../core/testing/session_count.js");
  const texts = new InputTexts();
  const program = texts.readText(programName, "asm");
  const engine = await startEngine();
  const state = await openSession(engine, texts, session);
  const { errors, difference, counts } = await measureSession(engine, state, program.text, cycles, RecorderClass);
  if (difference) {
    const { address, romByte, line, sourceByte } = difference;
    throw new CommandError(programDiffersMessage(programName, address, romByte, line + program.linesBefore, sourceByte));
  }
  if (!counts) throw await createRejectedTextsError(engine, { program }, errors);
  if (counts.stop !== "end") printError(`${name}: ${sessionStopped(counts.elapsed, counts.stop)}\n`);
  printCounts(counts, program);
  return 0;
}

/**
 * Runs the next cycles of a session if one is named; otherwise runs tests. Resolves to the exit status.
 * @param {TestCommand} command
 * @param {{ folder?: string, session?: string }} values
 * @param {string[]} givenNames
 */
export function runTestsOrSession(command, { folder, session }, givenNames) {
  if (session === undefined) return runTestCommand(command, folder, givenNames);
  if (folder !== undefined) throw new UsageError(cannotCombine("-C", "--session"));
  return countCycles(command, session, givenNames);
}
