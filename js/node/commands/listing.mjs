// `mcs4 listing`: prints an assembler listing of a program, or the program's names with their values.
import { joinLines } from "../../core/bench/inputs.js";
import { programNames, programListing } from "../../core/machine/program_listing.js";
import { cannotCombine } from "../../words/commands.js";
import { checkArguments, findProject } from "../arguments.mjs";
import { InputTexts } from "../input_texts.mjs";
import { assembleProgram, startEngine } from "../native_program.mjs";
import { UsageError, printVerbatim } from "../output.mjs";

/** @type {import("./table.mjs").CommandModule["run"]} */
export async function run({ folder, names, labels }, positionals) {
  if (names && labels) throw new UsageError(cannotCombine("--names", "--labels"));
  const project = await findProject(folder, positionals, 1);
  const words = project ? [project.program, ...positionals] : positionals;
  checkArguments(words, ["PROGRAM"], 1, true);
  const program = new InputTexts().readText(words[0], "asm");
  const { map, bytes } = await assembleProgram(await startEngine(), program);
  const lines = names || labels ? programNames(map, Boolean(labels)).map(({ name, value }) => `${name} ${value}`)
    : programListing(program.text, map, bytes);
  printVerbatim(joinLines(lines), program.encoding);
  return 0;
}
