// `mcs4 import`: converts a program from the syntax of Intel's assembler or of AS to the bench's syntax.
import { importProgram } from "../../core/import/program_import.js";
import { assembleText } from "../../core/engine/program_check.js";
import { findTextErrors } from "../../core/testing/test_preparation.js";
import { sentText } from "../../core/text/sendable_text.js";
import { checkArguments } from "../arguments.mjs";
import { InputTexts, MAX_TEXT_BYTES } from "../input_texts.mjs";
import { createRejectedTextsError, startEngine } from "../native_program.mjs";
import { CommandError, printVerbatim } from "../output.mjs";

const UTF8_MARK = /^\u00ef\u00bb\u00bf/;

/**
 * Throws an error if the bench rejects a converted program. The converted program has the same line numbers as the source.
 * @param {string} name the file name of the source
 * @param {string} source
 * @param {string} text the converted program
 */
async function checkOnBench(name, source, text) {
  const engine = await startEngine();
  const textErrors = findTextErrors("program", text);
  const { refusal } = textErrors.length > 0 ? { refusal: null } : assembleText(engine, sentText(text, ";"));
  if (!refusal && textErrors.length === 0) return;
  // Use the message of the refusal, because a message about the line would describe the bench's syntax.
  const { describeRefusal } = await import("../rejected_texts.mjs");
  const errors = refusal ? [{ text: /** @type {const} */ ("program"), ...refusal, words: describeRefusal(refusal.number) }] : textErrors;
  throw await createRejectedTextsError(engine, { program: { name, text: source, linesBefore: 0 } }, errors);
}

/** @type {import("./table.mjs").CommandModule["run"]} */
export async function run(values, words) {
  checkArguments(words, ["PROGRAM"]);
  const [name] = words;
  // Latin 1 has one character per byte, so comments in any encoding keep their bytes.
  const source = new InputTexts().read(name, MAX_TEXT_BYTES).toString("latin1").replace(UTF8_MARK, "").replace(/\r\n?/g, "\n");
  const { text, errors } = importProgram(source);
  if (errors.length > 0) throw new CommandError(errors.map(({ line, words: message }) => `${name}:${line}: ${message}`).join("\n"));
  await checkOnBench(name, source, text);
  printVerbatim(text, "latin1");
  return 0;
}
