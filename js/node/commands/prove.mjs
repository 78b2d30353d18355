// `mcs4 prove`: proves that properties are true for all inputs. The program mcs4-prove searches for counterexamples, and `mcs4 test`
// confirms each of them.
import { findExitStatus, formatTapHeader, formatJudgedTap } from "../../core/prove/verdicts.js";
import { resolveFileNames, parseCount, checkArguments } from "../arguments.mjs";
import { InputTexts } from "../input_texts.mjs";
import { print } from "../output.mjs";
import { ProgressLine } from "../progress_line.mjs";
import { beginProving } from "../proof_search.mjs";
import { provingSoFar } from "../../words/prove.js";

/** The maximum and the default number of states to search. */
const STATES_RANGE = { max: 999999999, defaultValue: 1000000 };

/** The maximum value of the memory option, in MB. */
const MAX_MEMORY = 1000000;

/** @type {import("./table.mjs").CommandModule["run"]} */
export async function run({ folder, most: statesWord, memory: memoryWord }, positionals) {
  const maxStates = statesWord === undefined ? STATES_RANGE.defaultValue : parseCount("N", statesWord, STATES_RANGE.max);
  const memory = memoryWord === undefined ? 0 : parseCount("MB", memoryWord, MAX_MEMORY);
  const names = await resolveFileNames(folder, positionals);
  checkArguments(names, ["BOARD", "PROGRAM", "PROPERTIES"], 3, true);
  const texts = new InputTexts();
  const [board, program] = [texts.readText(names[0], "wire"), texts.readText(names[1], "asm")];
  const properties = texts.readSource(names[2]);
  return proveAll(await beginProving({ board, program, properties }, { maxStates, memory }), properties.name);
}

/**
 * Tries to prove or disprove each property. Prints each result as soon as it is known. Resolves to the exit status.
 * @param {import("../../core/prove/property_judge.js").PropertyJudge} judge
 * @param {string} fileName the name of the properties file
 */
async function proveAll(judge, fileName) {
  const { total } = judge;
  const progress = new ProgressLine();
  const judgedProperties = [];
  for (const index of Array(total).keys()) {
    progress.beginStep((seconds) => provingSoFar(index + 1, total, judge.textOf(index), seconds));
    const judgedProperty = /** @type {import("../../core/prove/verdicts.js").JudgedProperty} */ (await judge.judgeNext());
    progress.clear();
    print((index === 0 ? formatTapHeader(total) : "") + formatJudgedTap(judgedProperty, index, fileName));
    judgedProperties.push(judgedProperty);
  }
  progress.end();
  return findExitStatus(judgedProperties);
}
