// Finds the text of the board that the bench currently has. The comments in that text define the front panel, even if the text in the
// editor has changed since. The page stores the text with the session, because the bench does not store it.

import { BoardDraft } from "../drawing/board_draft.js";
import { sentText } from "../text/sendable_text.js";

/** @typedef {{ text: string, board: string }} WiredText a board text, and the bench's answer to `board` after `wire` with this text */

/** The maximum number of stored board texts. Earlier texts are stored because a move back in time can return to an earlier board. */
const MAX_TEXTS = 4;

/**
 * Returns whether two board texts describe the same board. Ignores comments.
 * @param {string} text
 * @param {WiredText} wiredText
 */
export function describesSameBoard(text, wiredText) {
  return sentText(text, "#") === sentText(wiredText.text, "#") || new BoardDraft(text).matchesAnswers(wiredText.board.split("\n"));
}

/**
 * Returns the bench's current board: its text ("" if unknown), and the answer to `board`.
 * @param {string[]} answers the answer to `board`
 * @param {string} text the text in the editor
 * @param {WiredText[] | undefined} storedTexts the texts that the session stores; if undefined, the text in the editor is the result
 * @returns {WiredText}
 */
export function currentWiredText(answers, text, storedTexts) {
  const board = answers.join("\n");
  if (!storedTexts || new BoardDraft(text).matchesAnswers(answers)) return { text, board };
  return storedTexts.find((storedText) => storedText.board === board) || { text: "", board };
}

/**
 * Returns the texts that the session stores after a board is wired, newest first.
 * @param {WiredText} wiredText the text of the board
 * @param {WiredText[]} [storedTexts] the texts that the session already stores
 */
export function textsToStore(wiredText, storedTexts = []) {
  return [wiredText, ...storedTexts.filter(({ board }) => board !== wiredText.board)].slice(0, MAX_TEXTS);
}
