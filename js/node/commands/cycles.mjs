// `mcs4 cycles`: prints the durations of the runs in the bench's answers, in machine cycles.
import { joinLines } from "../../core/bench/inputs.js";
import { listRunTimes } from "../../core/time/run_times.js";
import { LINE_RANGE_SYNTAX, notALineNumberMessage } from "../../words/commands.js";
import { checkArguments } from "../arguments.mjs";
import { InputTexts } from "../input_texts.mjs";
import { makeAddressDescriber, startEngine } from "../native_program.mjs";
import { CommandError, UsageError, print } from "../output.mjs";

const LINE_NUMBER = /^\d{1,9}$/;

/**
 * Parses the range of answer lines whose runs are added up. Returns the numbers of the first and the last line, from 1; `last` is 0 if the range has
 * no end. Throws a UsageError if the words are not a valid range.
 * @param {string[]} words
 */
function parseRange(words) {
  if (words.length === 0) return { first: 1, last: 0 };
  checkArguments(words, ["FIRST", "LAST"]);
  const invalidWord = words.find((word) => !LINE_NUMBER.test(word));
  if (invalidWord !== undefined) throw new UsageError(notALineNumberMessage(invalidWord));
  const [first, last] = words.map(Number);
  if (first < 1 || last < first) throw new UsageError(LINE_RANGE_SYNTAX);
  return { first, last };
}

/** @type {import("./table.mjs").CommandModule["run"]} */
export async function run({ source }, positionals) {
  if (source !== undefined) checkArguments([source, ...positionals], ["PROGRAM", "SESSION"], Infinity);
  const [session, words] = source === undefined ? ["", positionals] : [positionals[0], positionals.slice(1)];
  const { first, last } = parseRange(words);
  const texts = new InputTexts();
  const answers = texts.readAnswers("cycles");
  const describeAddress = source === undefined ? null : await makeAddressDescriber(texts, await startEngine(), source, session);
  const describeCounter = describeAddress && ((/** @type {string} */ counter) => describeAddress(parseInt(counter, 16)));
  const { runs, sum, message: error } = listRunTimes(answers, first, last, describeCounter);
  if (error !== "") throw new CommandError(error);
  print(joinLines(describeAddress ? [...runs, sum] : [sum]));
  return 0;
}
