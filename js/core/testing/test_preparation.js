// Prepares tests: loads a board and a program into a new session, and collects the names in both texts. Reports errors in the texts.

import { readBoard, parseRefusal } from "../bench/answers.js";
import { matchAnswers, readInputs } from "../bench/inputs.js";
import { Face } from "../board/face.js";
import { missingPartErrors } from "../board/face_board.js";
import { SourceMap } from "../machine/source_map.js";
import { findSendingErrors, sentText } from "../text/sendable_text.js";
import { readRomCodes } from "../engine/rom_codes.js";

/**
 * @typedef {import("../conditions/condition_language.js").Names} Names
 * @typedef {import("../engine/engine_host.js").EngineHost} Engine
 * @typedef {{ boardText: string, programText: string }} Texts
 *
 * An error in one of a project's texts: the line number (0 if unknown) and the message. `number` is the refusal number, or 0 if the bench
 * did not reject the text. `file` is the file name of a test text.
 * @typedef {{ text: "board" | "program" | "tests" | "properties", file?: string, line: number, number: number,
 *   words: string }} ProjectTextError
 *
 * The data for a test run: the session file, the names in the texts, and the bytes in ROM.
 * @typedef {{ file: Uint8Array, names: Names & { map: SourceMap }, codes: Uint8Array }} PreparedTests
 */

/**
 * Returns the errors in a board's front-panel comments that make tests impossible.
 * @param {Face} face
 * @param {import("../bench/answers.js").Board} board
 * @returns {ProjectTextError[]}
 */
export function findNameErrors(face, board) {
  const nameErrors = [...face.errors, ...missingPartErrors(face, board)].filter(({ isFatal }) => isFatal);
  return nameErrors.map(({ line, message: words }) => ({ text: "board", line, number: 0, words }));
}

/**
 * Returns the errors that prevent a text from being sent to the bench.
 * @param {"board" | "program"} name
 * @param {string} text
 * @returns {ProjectTextError[]}
 */
export function findTextErrors(name, text) {
  return findSendingErrors(text, name === "board" ? "#" : ";").map(({ line, number, words }) => ({ text: name, line, number, words }));
}

/**
 * Returns the refusal in an answer as a list of one error; an empty list if the answer is not a refusal.
 * @param {"board" | "program"} name
 * @param {string} answer
 * @returns {ProjectTextError[]}
 */
function toRefusalErrors(name, answer) {
  const refusal = parseRefusal(answer);
  return refusal ? [{ text: name, line: refusal.line, number: refusal.number, words: "" }] : [];
}

/**
 * Wires a board in a temporary session. Returns the bench's answers to the query `board`, or the errors in the board text.
 * @param {Engine} engine
 * @param {string} text
 * @returns {{ errors: ProjectTextError[], answers: string[] }}
 */
export function wireBoard(engine, text) {
  const textErrors = findTextErrors("board", text);
  if (textErrors.length > 0) return { errors: textErrors, answers: [] };
  const [wireAnswer, ...answers] = engine.ask(engine.begin(), `wire\n${sentText(text, "#")}.\nboard\n`).answers;
  return { errors: toRefusalErrors("board", wireAnswer), answers };
}

/**
 * Returns the file of a new session with a board and a program, and the errors in the texts. Skips an empty text.
 * @param {Engine} engine
 * @param {Texts} texts
 * @returns {{ file: Uint8Array, errors: ProjectTextError[] }}
 */
export function createSessionFile(engine, { boardText, programText }) {
  const file = engine.begin();
  const textErrors = [...findTextErrors("board", boardText), ...findTextErrors("program", programText)];
  if (textErrors.length > 0) return { file, errors: textErrors };
  const texts = [
    ...(boardText === "" ? [] : [{ name: /** @type {const} */ ("board"), lines: `wire\n${sentText(boardText, "#")}.\n` }]),
    ...(programText === "" ? [] : [{ name: /** @type {const} */ ("program"), lines: `asm\n${sentText(programText, ";")}.\n` }]),
  ];
  if (texts.length === 0) return { file, errors: [] };
  const { answers } = engine.serve(file, texts.map(({ lines }) => lines).join(""), file);
  return { file, errors: texts.flatMap(({ name }, index) => toRefusalErrors(name, answers[index])).slice(0, 1) };
}

/**
 * Prepares the tests of a program on a board. Returns the errors if a text cannot be used.
 * @param {Engine} engine
 * @param {Texts} texts
 * @returns {{ prepared: PreparedTests | null, errors: ProjectTextError[] }}
 */
export function prepareTests(engine, { boardText, programText }) {
  const { file, errors: sessionErrors } = createSessionFile(engine, { boardText, programText });
  if (sessionErrors.length > 0) return { prepared: null, errors: sessionErrors };
  const program = sentText(programText, ";");
  const queries = `board\nmap\n${program}.\n`;
  const [board, map] = matchAnswers(readInputs(queries), engine.ask(file, queries).answers);
  const names = { face: new Face(boardText), board: readBoard(board), map: new SourceMap(map, program) };
  const errors = findNameErrors(names.face, names.board);
  return { prepared: errors.length > 0 ? null : { file, names, codes: readRomCodes(engine, file) }, errors };
}
