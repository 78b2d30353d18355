// `mcs4 names`: replaces the names that a program defines with their values in session lines.
import { replaceNames } from "../../core/bench/name_substitution.js";
import { errorInLine } from "../../words/commands.js";
import { checkArguments, findProject } from "../arguments.mjs";
import { InputTexts } from "../input_texts.mjs";
import { assembleProgram, startEngine } from "../native_program.mjs";
import { CommandError, printVerbatim } from "../output.mjs";

/** @type {import("./table.mjs").CommandModule["run"]} */
export async function run({ folder }, positionals) {
  const project = await findProject(folder, positionals, 1);
  const words = project ? [project.program, ...positionals] : positionals;
  checkArguments(words, ["PROGRAM"], 1, true);
  const texts = new InputTexts();
  const { text, encoding } = texts.readInputText();
  const { map } = await assembleProgram(await startEngine(), texts.readText(words[0], "asm"));
  const { lines, line, message: error } = replaceNames(text, map);
  if (error !== "") throw new CommandError(errorInLine(line, error));
  printVerbatim(lines === "" || lines.endsWith("\n") ? lines : `${lines}\n`, encoding);
  return 0;
}
