// `mcs4 display`: prints the text on a board's display, from the bench's answers about lamps.
import { joinLines } from "../../core/bench/inputs.js";
import { convertLampAnswers } from "../../core/board/lamp_answers.js";
import { checkArguments, findProject } from "../arguments.mjs";
import { readBoardAndFace } from "../board_file.mjs";
import { InputTexts } from "../input_texts.mjs";
import { startEngine } from "../native_program.mjs";
import { CommandError, print } from "../output.mjs";

/** @type {import("./table.mjs").CommandModule["run"]} */
export async function run({ folder }, positionals) {
  const project = await findProject(folder, positionals, 1);
  const words = project ? [project.board, ...positionals] : positionals;
  checkArguments(words, ["BOARD"], 1, true);
  const [name] = words;
  const texts = new InputTexts();
  const boardText = texts.readText(name, "wire");
  // Read standard input before the engine starts, so that a signal ends the waiting process immediately.
  const answers = texts.readAnswers("display");
  const { board, face } = await readBoardAndFace(await startEngine(), boardText);
  const { lines, error } = convertLampAnswers(face, board, name, answers);
  if (error !== "") throw new CommandError(error);
  print(joinLines(lines));
  return 0;
}
