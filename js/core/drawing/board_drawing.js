// The board editor without its view: its selection, the wire that the user is drawing, and its actions. Before an action edits the board
// text, the bench checks the resulting text. The drawing shows the board that the bench reports.

import { readBoard, parseRefusal } from "../bench/answers.js";
import { signalLines } from "../bench/board_form.js";
import { formatQuantity } from "../bench/numbers.js";
import { Face } from "../board/face.js";
import { sentText } from "../text/sendable_text.js";
import { SHELF_PARTS, applyAction, reasonNotToAdd, matchesBench } from "./drawing_actions.js";
import { targetName, listPossibleSources, listPossibleTargets, mapInputsToLines, boardWithBuzzer } from "./board_lines.js";
import { selectionForm } from "./selection_form.js";
import { MovedParts } from "./moved_parts.js";
import * as say from "../../words/drawing.js";

/**
 * @typedef {import("./board_lines.js").Board} Board
 * @typedef {import("./drawing_actions.js").DrawingAction} DrawingAction
 * @typedef {import("./drawing_actions.js").ShelfPart} ShelfPart
 * @typedef {import("./text_edits.js").TextEdit} TextEdit
 *
 * The state that the view shows. `board` and `face`: the board that the text describes, and its front panel. `isWired`: true if the session
 * has the same board. `error`: the message if the board cannot be drawn, or "". `shelf`: for each kind of part on the shelf, the reason why
 * the part cannot be added now, or "". `selected`: the selected part or pin, "" for none. `fields`: the form for the selection.
 * `wireStart`: the start pin of an unfinished wire, or "". `ends`: the possible end pins of that wire. `lastMessage`: the last message to
 * the user.
 * @typedef {{ board: Board, face: Face, isWired: boolean, error: string, shelf: Map<ShelfPart, string>, selected: string,
 *   fields: import("./selection_form.js").SelectionForm, wireStart: string, ends: Set<string>, lastMessage: string }} DrawingState
 */

/**
 * The functions with which the board editor uses the text editor and the bench.
 * @typedef {object} DrawingCallbacks
 * @property {() => string} text Returns the board text in the editor.
 * @property {(lines: string) => Promise<string[]>} ask Resolves to the bench's answers to lines, without changing the session.
 * @property {(edits: TextEdit[]) => void} edit Edits the text. One undo step reverts all these edits.
 * @property {() => boolean} undo Undoes the last step; returns false if there is none.
 * @property {() => boolean} redo Repeats the last undone step; returns false if there is none.
 * @property {(number: number) => string} describeRefusal Returns the message of a refusal.
 */

/** The board editor: its state and its actions. */
export class BoardDrawing {
  /**
   * @param {DrawingCallbacks} callbacks
   * @param {(state: DrawingState) => void} show shows a state in the view
   */
  constructor(callbacks, show) {
    this.callbacks = callbacks;
    this.show = show;
    /**
     * The bench's answers to `board`: `wiredAnswers` for the session's board, as one string; `answers` for the text in the editor, as
     * lines.
     */
    this.wiredAnswers = "";
    this.answers = ["board"];
    /** @type {Board} */
    this.board = readBoard(this.answers);
    this.face = new Face("");
    this.error = "";
    /** @type {Map<ShelfPart, string>} */
    this.shelf = new Map();
    /** The text that the board editor last read from the text editor; null before the first read. */
    this.text = /** @type {string | null} */ (null);
    this.selectedPart = "";
    this.wireStart = "";
    this.lastMessage = "";
    /** The positions of dragged parts. */
    this.movedParts = new MovedParts();
    /** @type {Promise<void>} resolves when the last action is done; actions run one after the other */
    this.lastAction = Promise.resolve();
  }

  /**
   * Stores the answer that describes the board of the session.
   * @param {string[]} answers the answer to `board`
   */
  setSessionBoard(answers) {
    this.wiredAnswers = answers.join("\n");
  }

  /** Forgets the text, the selection and the message, for another session. */
  reset() {
    this.text = null;
    this.selectedPart = "";
    this.wireStart = "";
    this.lastMessage = "";
  }

  /**
   * Runs an action after all earlier actions. Returns the promise of the action.
   * @param {() => Promise<void>} action
   */
  runInOrder(action) {
    const result = this.lastAction.then(action);
    this.lastAction = result.catch(() => {});
    return result;
  }

  /** Waits for all earlier actions, reads the text if it has changed, and shows the board. */
  refresh() {
    return this.runInOrder(() => this.readText());
  }

  /** Reads the text if it has changed, and shows the board. */
  async readText() {
    const text = this.callbacks.text();
    if (text !== this.text) {
      const { errorMessage, answers } = await this.checkText(text);
      if (errorMessage || matchesBench(text, answers)) this.storeText(text, errorMessage ? this.answers : answers, errorMessage);
      else this.storeText(text, answers, say.CANNOT_EDIT);
    }
    this.reportChange();
  }

  /**
   * Stores a board text, and the board that it describes.
   * @param {string} text
   * @param {string[]} answers the answer to `board`
   * @param {string} error the message if the board cannot be drawn, or ""
   */
  storeText(text, answers, error) {
    this.movedParts.updateForTextChange(this.text, text);
    this.text = text;
    this.answers = answers;
    this.face = new Face(text);
    this.board = boardWithBuzzer(readBoard(answers), this.face);
    this.error = error;
    this.wireStart = "";
    if (error === "") this.shelf = new Map(SHELF_PARTS.map((part) => [part, reasonNotToAdd(text, part)]));
    if (!this.isOnBoard(this.selectedPart)) this.selectedPart = "";
  }

  /**
   * Asks the bench to wire a board text, without changing the session. Resolves to the bench's answer to `board`, and to an error message
   * if the bench rejects the text, otherwise "".
   * @param {string} text
   */
  async checkText(text) {
    const [first, ...answers] = await this.callbacks.ask(`wire\n${sentText(text, "#")}.\nboard\n`);
    const refusal = parseRefusal(first);
    const message = refusal ? say.benchRejectsMessage(this.callbacks.describeRefusal(refusal.number)) : "";
    return { errorMessage: message, answers };
  }

  /**
   * Returns whether a part or a pin is on the board.
   * @param {string} name
   */
  isOnBoard(name) {
    const { board, face } = this;
    const [kind, number] = name.split(" ");
    if (kind === "keys") return board.matrix !== null;
    if (kind === "lamps") return board.lamps.length > 0;
    if (kind === "test") return face.test !== null;
    if (kind === "buzzer") return Boolean(board.buzzer);
    if (kind === "rom") return board.roms.some(({ chip }) => String(chip) === number);
    if (kind === "chain") return Number(number) < board.chains.length;
    if (kind === "ram") return signalLines(board).some((line) => line.name.startsWith(`ram${number}.`));
    return mapInputsToLines(board).has(name) || signalLines(board).some((line) => line.name === name);
  }

  /** The pins at which the unfinished wire can end; none if there is no unfinished wire. */
  get possibleEnds() {
    const { board, wireStart } = this;
    if (wireStart === "" || this.error) return new Set(/** @type {string[]} */ ([]));
    const currentLine = mapInputsToLines(board).get(wireStart);
    if (currentLine === undefined) return new Set(listPossibleTargets(board, wireStart));
    return new Set(listPossibleSources(board, wireStart).filter((line) => line !== currentLine));
  }

  /** Passes the current state to the view. */
  reportChange() {
    const { board, face, error, shelf, selectedPart: selected, wireStart, possibleEnds: ends, lastMessage } = this;
    const isWired = this.answers.join("\n") === this.wiredAnswers;
    this.show({ board, face, isWired, error, shelf, selected, fields: selectionForm(board, face, selected), wireStart, ends, lastMessage });
  }

  /**
   * Replaces the message of the drawing, and reports the change.
   * @param {string} message
   */
  showMessage(message) {
    this.lastMessage = message;
    this.reportChange();
  }

  /**
   * Handles a click, tap or Enter on a part or pin. If an unfinished wire can end at the pin, connects the wire. Otherwise, selects the
   * part or pin. If a wire can start there, begins a wire. A second click on the start pin removes the unfinished wire.
   * @param {string} name
   */
  handleClick(name) {
    if (this.possibleEnds.has(name)) return this.endWire(name);
    const isSamePin = this.wireStart === name;
    this.selectedPart = name;
    this.wireStart = isSamePin ? "" : name;
    if (this.possibleEnds.size === 0) this.wireStart = "";
    const count = this.possibleEnds.size;
    this.showMessage(this.wireStart ? say.wireStarted(pinName(name), formatQuantity(count, "pin")) : "");
    return Promise.resolve();
  }

  /**
   * Connects the unfinished wire to a pin.
   * @param {string} name the name of the pin
   */
  endWire(name) {
    const { wireStart, board } = this;
    const [line, target] = mapInputsToLines(board).has(wireStart) ? [name, wireStart] : [wireStart, name];
    return this.performInOrder({ kind: "wire", line, target });
  }

  /** Removes the unfinished wire. If there is none, clears the selection. */
  cancelWire() {
    const message = this.wireStart ? say.NO_WIRE : "";
    if (!this.wireStart) this.selectedPart = "";
    this.wireStart = "";
    this.showMessage(message);
  }

  /**
   * Performs an action after all earlier actions.
   * @param {DrawingAction} action
   */
  performInOrder(action) {
    return this.runInOrder(() => this.perform(action));
  }

  /**
   * Performs an action if the bench accepts the result; otherwise shows a message.
   * @param {DrawingAction} action
   * @returns {Promise<void>}
   */
  async perform(action) {
    const text = this.callbacks.text();
    const result = applyAction(text, action);
    if (result.refusal) return this.showMessage(result.refusal);
    if (result.edits.length === 0) return this.showMessage(say.NO_CHANGE);
    const { errorMessage, answers } = await this.checkText(result.text);
    if (errorMessage || !matchesBench(result.text, answers)) return this.showMessage(say.notDoneMessage(errorMessage || say.CANNOT_EDIT));
    // If the user edited the text while the bench checked the result, perform the action on the new text.
    if (this.callbacks.text() !== text) return this.perform(action);
    this.callbacks.edit(result.edits);
    this.movedParts.recordDeletion(text, result.text, result.deletedChains);
    this.storeText(result.text, answers, "");
    this.selectedPart = this.isOnBoard(result.part) ? result.part : "";
    return this.showMessage(result.message);
  }

  /**
   * Undoes or redoes the last edit of the text.
   * @param {"undo" | "redo"} operation
   */
  undoOrRedo(operation) {
    return this.runInOrder(async () => {
      const isDone = this.callbacks[operation]();
      this.lastMessage = operation === "undo" ? say.UNDONE : say.REDONE;
      if (!isDone) this.lastMessage = operation === "undo" ? say.NOTHING_TO_UNDO : say.NOTHING_TO_REDO;
      await this.readText();
    });
  }
}

/**
 * Returns the name of a pin for messages.
 * @param {string} name
 */
function pinName(name) {
  return name.includes(" ") ? targetName(name) : say.lineOfBoard(name);
}
