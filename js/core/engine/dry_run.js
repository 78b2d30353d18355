// Loads a board text and a program text into a new session, and reports the texts that the bench rejects.

import { findSendingErrors, sentText } from "../text/sendable_text.js";
import { lineReference } from "../../words/stops.js";

/**
 * @typedef {import("./engine_host.js").EngineHost} Engine
 * @typedef {{ boardText: string, programText: string }} Texts
 *
 * A rejected text: the command that sent it, and the error message or the bench's answer.
 * @typedef {{ word: "wire" | "asm", answer: string }} RejectedText
 *
 * The session file with the accepted texts, the answer to `board`, and the rejected texts.
 * @typedef {{ file: Uint8Array, board: string[], rejectedTexts: RejectedText[] }} DryRunResult
 */

/**
 * Loads a board text and a program text into a new session.
 * @param {Engine} engine
 * @param {Texts} texts
 * @returns {DryRunResult}
 */
export function dryRun(engine, { boardText, programText }) {
  const file = engine.begin();
  /** @type {RejectedText[]} */
  const rejectedTexts = [];
  /** @type {(word: "wire" | "asm", text: string, mark: "#" | ";") => void} */
  const tryText = (word, text, mark) => {
    if (text === "") return;
    // A line that consists of a dot would end the text. The bench would execute the lines after the dot as commands.
    const [error] = findSendingErrors(text, mark);
    const lines = `${word}\n${sentText(text, mark)}.\n`;
    const answer = error ? `${lineReference(error.line)}: ${error.words}` : engine.serve(file, lines, file).answers[0];
    if (!/^ok /.test(answer)) rejectedTexts.push({ word, answer });
  };
  tryText("wire", boardText, "#");
  tryText("asm", programText, ";");
  return { file, board: engine.ask(file, "board\n").answers, rejectedTexts };
}
