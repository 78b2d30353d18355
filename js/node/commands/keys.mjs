// `mcs4 keys`: prints session lines that press keys by name, or presses the keys in a session until a run stops.
import { isRefusalOrStop, parseRefusal } from "../../core/bench/answers.js";
import { joinLines } from "../../core/bench/inputs.js";
import { DEFAULT_PACE } from "../../core/testing/press_lines.js";
import { benchRejected } from "../../words/commands.js";
import { parseCount, checkArguments, findProject } from "../arguments.mjs";
import { readBoardAndFace, makeKeyLines } from "../board_file.mjs";
import { InputTexts, MAX_TEXT_BYTES } from "../input_texts.mjs";
import { findProgramPath, startEngine } from "../native_program.mjs";
import { CommandError, print, printVerbatim } from "../output.mjs";

const MAX_CYCLES = 100000;

/**
 * Executes lines in a session up to the first run that stops early or the first rejected line, and prints the answers. Resolves to the exit
 * status. Throws a CommandError for a rejected line.
 * @param {string} session the session's file name
 * @param {string[]} lines
 */
async function pressInSession(session, lines) {
  const { openProgram } = await import("../session_process.mjs");
  const program = await openProgram("open", session);
  let answer = "";
  try {
    print(`${program.openingLine}\n`);
    for (const line of lines) {
      [answer] = await program.ask(`${line}\n`, 1);
      print(`${answer}\n`);
      if (isRefusalOrStop(answer)) break;
    }
  } finally {
    await program.end();
  }
  const refusal = parseRefusal(answer);
  if (!refusal) return 0;
  const { describeRefusal } = await import("../rejected_texts.mjs");
  throw new CommandError(benchRejected(answer, describeRefusal(refusal.number)));
}

/** @type {import("./table.mjs").CommandModule["run"]} */
export async function run({ folder, down, up, "until-stop": session }, positionals) {
  const pace = {
    down: down === undefined ? DEFAULT_PACE.down : parseCount("CYCLES of --down", down, MAX_CYCLES),
    up: up === undefined ? DEFAULT_PACE.up : parseCount("CYCLES of --up", up, MAX_CYCLES),
  };
  const project = positionals.length > 0 ? await findProject(folder, positionals, 2) : null;
  const words = project ? [project.board, ...positionals] : positionals;
  checkArguments(words, ["BOARD", "KEYS"], 2, true);
  const [boardName, keys] = words;
  const texts = new InputTexts();
  const boardText = texts.readText(boardName, "wire");
  if (session !== undefined) {
    texts.read(session, MAX_TEXT_BYTES);
    findProgramPath();
  }
  const engine = await startEngine();
  const { face } = await readBoardAndFace(engine, boardText);
  const lines = makeKeyLines(face, boardName, keys, pace);
  if (session !== undefined) return pressInSession(session, lines);
  printVerbatim(joinLines(lines), "utf8");
  return 0;
}
