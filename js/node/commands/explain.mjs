// `mcs4 explain`: prints the rejected lines of a script, with the reasons.
import { matchScriptAnswers } from "../../core/bench/script_answers.js";
import { joinLines } from "../../core/bench/inputs.js";
import { answersOfOtherScript } from "../../words/commands.js";
import { checkArguments } from "../arguments.mjs";
import { InputTexts } from "../input_texts.mjs";
import { makeAddressDescriber, startEngine } from "../native_program.mjs";
import { CommandError, print } from "../output.mjs";
import { RejectedLines } from "../rejected_lines.mjs";

/** @type {import("./table.mjs").CommandModule["run"]} */
export async function run({ source }, positionals) {
  if (source === undefined) checkArguments(positionals, ["SCRIPT"]);
  else checkArguments([source, ...positionals], ["PROGRAM", "SESSION", "SCRIPT"]);
  const texts = new InputTexts();
  const script = texts.readScript(positionals[positionals.length - 1]);
  const answers = texts.readAnswers("explain");
  const engine = await startEngine();
  const describeAddress = source === undefined ? null : await makeAddressDescriber(texts, engine, source, positionals[0]);
  const { inputs, message } = matchScriptAnswers(script, answers);
  if (message !== "") throw new CommandError(answersOfOtherScript(message));
  const lines = script.split("\n").map((line) => line.replace(/\r$/, ""));
  const report = new RejectedLines(engine, lines, describeAddress).createReport(inputs, answers[0]);
  print(joinLines(report));
  return report.length > 0 ? 1 : 0;
}
