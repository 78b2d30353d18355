// Summarises a session for lists: a title, and the numbers of chips, lamps and keys on the board.

import { formatQuantity } from "../bench/numbers.js";
import { Face } from "../board/face.js";
import { parseFaceLine } from "../board/face_words.js";
import * as say from "../../words/session.js";

/** @typedef {import("../bench/answers.js").Board} Board */

/**
 * Returns the first sentence of the comment at the start of a board or program text; "" if there is none. The comment ends before the first
 * line that describes the front panel.
 * @param {string} text
 * @param {string} mark the character that starts a comment
 */
function findFirstSentence(text, mark) {
  const commentLines = [];
  for (const line of text.split("\n")) {
    const comment = line.startsWith(mark) ? line.replace(/^[#; ]+|[#; ]+$/g, "") : "";
    if (comment === "" || parseFaceLine(line)) break;
    commentLines.push(comment);
  }
  const [sentence] = commentLines.join(" ").split(/[.:](?: |$)/);
  return sentence && `${sentence[0].toUpperCase()}${sentence.slice(1)}.`;
}

/**
 * Returns the title in the board text; or else the first sentence of the board's comment, or of the program's comment. Returns "" if there
 * is none of these.
 * @param {string} boardText
 * @param {string} programText
 */
export function sessionTitle(boardText, programText) {
  return new Face(boardText).title || findFirstSentence(boardText, "#") || findFirstSentence(programText, ";");
}

/**
 * Returns a description of the parts of a board: `2 ROMs, 1 RAM chip, 3 lamps`.
 * @param {Board} board
 */
export function describeBoard({ roms, banks, chains, lamps, rows, columns }) {
  const ramCount = banks.reduce((sum, bank) => sum + bank.chips, 0);
  const shiftRegisterCount = chains.reduce((sum, chain) => sum + chain.chips, 0);
  const counts = [roms.length, ramCount, shiftRegisterCount, lamps.length, rows * columns];
  return counts.map((count, index) => count > 0 && formatQuantity(count, say.PARTS[index])).filter(Boolean).join(", ") || say.NO_CHIP;
}
