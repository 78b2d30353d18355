// Reads the board file of a command: the board as the bench wires it, and its front panel. Error messages contain the file name and the line number.
import { readBoard } from "../core/bench/answers.js";
import { Face } from "../core/board/face.js";
import { findNameErrors, wireBoard } from "../core/testing/test_preparation.js";
import { createPressLines } from "../core/testing/press_lines.js";
import { keysWithoutNames, noKeyOnBoardMessage } from "../words/commands.js";
import { createRejectedTextsError } from "./native_program.mjs";
import { CommandError } from "./output.mjs";

/** @typedef {import("./input_texts.mjs").InputText} InputText */

/**
 * Reads a board and its front panel. Resolves to the board, the front panel, and the lines of the bench's answer to `board`. Rejects if the board
 * file has errors.
 * @param {import("../core/engine/engine_host.js").EngineHost} engine
 * @param {InputText} boardFile
 */
export async function readBoardAndFace(engine, boardFile) {
  const { errors: boardErrors, answers } = wireBoard(engine, boardFile.text);
  const face = new Face(boardFile.text);
  const board = readBoard(answers);
  const errors = boardErrors.length > 0 ? boardErrors : findNameErrors(face, board);
  if (errors.length > 0) throw await createRejectedTextsError(engine, { board: boardFile }, errors);
  return { board, face, answers };
}

/**
 * Returns the session lines that press a sequence of keys. Throws a CommandError if the front panel lacks one of the keys.
 * @param {Face} face
 * @param {string} boardName
 * @param {string} keys
 * @param {import("../core/testing/press_lines.js").Pace} pace
 */
export function makeKeyLines(face, boardName, keys, pace) {
  const { lines, unknownName: unknownKey } = createPressLines(face, keys, pace);
  if (unknownKey === null) return lines;
  const hasNames = face.test !== null || [...face.keys.values()].some(({ text }) => text !== "");
  throw new CommandError(hasNames ? noKeyOnBoardMessage(boardName, unknownKey) : keysWithoutNames(boardName));
}
