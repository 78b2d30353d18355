// The board text while an action edits it: the edits made so far, and the board that the edited text describes.

import { Face } from "../board/face.js";
import { BoardDraft } from "./board_draft.js";
import { boardWithBuzzer } from "./board_lines.js";
import { applyEdits, makeSuccessive } from "./text_edits.js";

/**
 * @typedef {import("./text_edits.js").TextEdit} TextEdit
 */

/** The error for an action that is impossible. Its message explains why and, if possible, says what to do. */
export class ImpossibleAction extends Error {}

/** The board text while an action edits it. */
export class EditedBoard {
  /** @param {string} text */
  constructor(text) {
    this.draft = new BoardDraft(text);
    /** @type {TextEdit[]} the edits made so far; each edit refers to the text after the earlier edits */
    this.edits = [];
    /** @type {string[]} the names of the parts that the action added because the new part needs them */
    this.addedParts = [];
    /** @type {number[]} the deleted chains, by their original numbers */
    this.deletedChains = [];
  }

  /**
   * Applies edits whose offsets refer to the current text.
   * @param {TextEdit[]} edits
   */
  edit(edits) {
    const successiveEdits = makeSuccessive(edits);
    this.edits.push(...successiveEdits);
    this.draft = new BoardDraft(applyEdits(this.draft.text, successiveEdits));
  }

  /** The text after the edits made so far. */
  get text() {
    return this.draft.text;
  }

  /** The board that the edited text describes. */
  get board() {
    return boardWithBuzzer(this.draft.board, new Face(this.text));
  }
}
