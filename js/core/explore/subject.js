// The subject of a search or proof: a session at power-on with a board and a program, and the names in their texts.

import { readBoard, parseRefusal } from "../bench/answers.js";
import { matchAnswers, readInputs } from "../bench/inputs.js";
import { Face } from "../board/face.js";
import { SourceMap } from "../machine/source_map.js";
import { sentText } from "../text/sendable_text.js";
import { isBranch, readRomCodes } from "../engine/rom_codes.js";
import * as say from "../../words/explore.js";

/**
 * @typedef {import("../engine/engine_host.js").EngineHost} Engine
 * @typedef {import("../conditions/condition_language.js").Names} Names
 *
 * An instruction of the program: its source line, its address, and whether it can either jump or continue at the next address.
 * @typedef {{ line: number, address: number, isBranch: boolean }} Instruction
 *
 * @typedef {{ engine: Engine, file: Uint8Array, names: Names & { map: SourceMap }, codes: Uint8Array,
 *   instructions: Instruction[], texts: { board: string, program: string } }} Subject `file` is the session file; `codes` are the bytes
 *   in ROM
 */

/** The error for a text that the bench rejects, with the refusal number and the line number of the error (0 for none). */
export class RejectedTextError extends Error {
  /**
   * @param {"board" | "program"} textName
   * @param {import("../bench/answers.js").Refusal} refusal
   */
  constructor(textName, { number, line }) {
    super(say.textRejectedMessage(textName, number, line ? `, line ${line}` : ""));
    this.textName = textName;
    this.number = number;
    this.line = line;
  }
}

/**
 * Creates a session with a board and a program. Throws RejectedTextError if the bench rejects a text.
 * @param {Engine} engine
 * @param {string} boardText
 * @param {string} programText
 * @param {number} [linesBefore] the number of lines before the program text in its file
 * @returns {Subject}
 */
export function createSubject(engine, boardText, programText, linesBefore = 0) {
  const file = engine.begin();
  const program = sentText(programText, ";");
  const lines = `wire\n${sentText(boardText, "#")}.\nasm\n${program}.\nboard\nmap\n${program}.\n`;
  const { answers } = engine.serve(file, lines, file);
  const [wireAnswers, loadAnswers, board, map] = matchAnswers(readInputs(lines), answers);
  const boardRefusal = parseRefusal(wireAnswers[0]);
  if (boardRefusal) throw new RejectedTextError("board", boardRefusal);
  const programRefusal = parseRefusal(loadAnswers[0]) || parseRefusal(map[0]);
  if (programRefusal) throw new RejectedTextError("program", programRefusal);
  const sourceMap = new SourceMap(map, programText);
  const codes = readRomCodes(engine, file);
  const instructions = [];
  for (let line = 1; line <= sourceMap.lineCount; line++) {
    const address = sourceMap.addressOf(line);
    if (address === undefined || !sourceMap.beginsInstruction(address)) continue;
    instructions.push({ line: line + linesBefore, address, isBranch: isBranch(codes[address]) });
  }
  const names = { face: new Face(boardText), board: readBoard(board), map: sourceMap };
  return { engine, file, names, codes, instructions, texts: { board: boardText, program: programText } };
}
