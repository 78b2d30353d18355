// Finds all errors in a text that the bench has rejected. The messages are the same as on the page.
import { readInstructions } from "../core/help/manual.js";
import { TextBench } from "../core/server/text_bench.js";
import { TextErrorFinder } from "../core/text/text_error_finder.js";
import { readBoardTables } from "../core/text/text_help.js";
import { Engine } from "../core/engine/engine.js";
import { readPageModule } from "./page_parts.mjs";

/** @type {TextBench | null} */
let bench = null;

/** Resolves to the bench, which the first call starts. */
async function loadBench() {
  if (!bench) bench = new TextBench(await Engine.load(readPageModule()));
  return bench;
}

/**
 * Resolves to the errors in a text, with their lines.
 * @param {import("../core/prompt/bench_prompt.js").TextWord} word
 * @param {string} text
 * @param {string} board the text of the board, which a program needs
 * @param {{ manual: import("../core/help/manual.js").ManualSection[], wordsOf: (number: number) => string }} resources
 */
export async function findTextErrors(word, text, board, { manual, wordsOf }) {
  const textBench = await loadBench();
  const isBoard = word === "wire" || word === "wiring";
  if (!isBoard) textBench.setBoard(word === "asm" ? board : null);
  const tables = readBoardTables(manual);
  const finder = new TextErrorFinder(textBench.createQueries(), { instructions: readInstructions(manual), tables }, wordsOf);
  const result = await (isBoard ? finder.findInBoard(text, () => true) : finder.findInProgram(text, () => true));
  return result ? result.errors : [];
}
