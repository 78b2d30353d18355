// Controls the picture in the Wiring tab. The picture is drawn from the board's text in the Board tab.

import { handlesKey } from "../board/key_presser.js";
import { button, isDialogOpen, onClick } from "../ui/dom.js";
import { TITLE_HEIGHT } from "../../core/board/wiring.js";
import { BoardDrawing } from "../../core/drawing/board_drawing.js";
import { DrawingView } from "./drawing_view.js";
import { PictureInput } from "./picture_input.js";
import { PictureZoom } from "./picture_zoom.js";

/**
 * @typedef {import("../board/wiring_view.js").WiringView} WiringView
 * @typedef {import("../session/open_session.js").OpenSession} OpenSession
 * @typedef {import("../../core/drawing/board_drawing.js").DrawingCallbacks} DrawingCallbacks
 * @typedef {import("../../core/drawing/board_drawing.js").DrawingState} DrawingState
 * @typedef {import("../../core/bench/answers.js").Board} Board
 */

/**
 * The callbacks through which the controller acts on the page.
 * @typedef {object} DrawingPageCalls
 * @property {() => boolean} isInFront Returns true if the Wiring tab is in front. Otherwise the picture is drawn when the user brings the
 *   tab to the front.
 * @property {() => void} bringToFront Brings the Wiring tab to the front.
 * @property {() => Promise<string>} applyBoard Applies the board's text. Resolves to the message about the result.
 * @property {(board: Board) => void} insertKeyScan Inserts a key scan routine for a board into the source.
 * @property {(part: string) => void} showPartLines Shows the lines of a part in the board's text. The part is named as in the picture, for
 *   example `rom 1`.
 * @property {() => OpenSession | null} session Returns the current session, whose record stores the positions of moved parts, or null if
 *   there is none.
 * @property {() => void} saveSession Saves the session after the user has moved parts.
 * @property {(error: unknown) => void} reportFailure Reports an error that a call threw.
 */

/** @typedef {DrawingCallbacks & DrawingPageCalls} PictureCalls */

/** The delay in milliseconds between the last edit and the update of the picture. */
const DRAW_DELAY_MS = 300;

export class DrawingController {
  /**
   * @param {WiringView} picture
   * @param {PictureCalls} calls
   */
  constructor(picture, calls) {
    this.picture = picture;
    this.calls = calls;
    this.drawTimer = 0;
    this.drawing = new BoardDrawing(calls, (state) => this.show(state));
    this.view = this.makeView();
    this.view.movedParts = this.drawing.movedParts.positions;
    this.input = this.makeInput();
    this.zoom = new PictureZoom(picture.root);
    onClick(button("first-drawing"), calls.bringToFront);
    addEventListener("keydown", (event) => this.handleKey(event));
  }

  makeView() {
    return new DrawingView(this.picture, {
      performAction: (action) => this.reportFailureOf(this.drawing.performInOrder(action)),
      undoOrRedo: (direction) => this.reportFailureOf(this.drawing.undoOrRedo(direction)),
      applyBoard: () => this.reportFailureOf(this.applyBoard()),
      showPartLines: this.calls.showPartLines,
      arrangeParts: () => this.arrangeParts(),
      dropPart: (action, point) => this.reportFailureOf(this.dropPart(action, point)),
      insertKeyScan: () => {
        if (this.view.lastState) this.calls.insertKeyScan(this.view.lastState.board);
      },
    });
  }

  makeInput() {
    const { drawing } = this;
    return new PictureInput(this.picture, {
      pressItem: (name) => this.reportFailureOf(drawing.handleClick(name)),
      drawWire: (from, to) => {
        drawing.wireStart = from;
        this.reportFailureOf(drawing.endWire(to));
      },
      movePart: (part, point) => this.movePart(part, point),
      handleDrop: () => {
        this.view.lastDrawnData = "";
        this.view.showPicture();
        this.storePositions();
      },
      deleteItem: (name) => this.reportFailureOf(drawing.performInOrder({ kind: "delete", part: name })),
      cancelAction: () => drawing.cancelWire(),
      undoOrRedo: (direction) => this.reportFailureOf(drawing.undoOrRedo(direction)),
    });
  }

  /**
   * Handles a key that is pressed with Control or Command while the picture is in front, unless the focused element handles the key.
   * @param {KeyboardEvent} event
   */
  handleKey(event) {
    const isForPicture = this.calls.isInFront() && !isDialogOpen() && !handlesKey(event.target, event.key);
    if (!isForPicture || event.defaultPrevented || !(event.ctrlKey || event.metaKey)) return;
    if (this.input.handleControlKey(event)) event.preventDefault();
  }

  /**
   * Reports the error if a promise is rejected.
   * @param {Promise<void>} work
   */
  reportFailureOf(work) {
    work.catch(this.calls.reportFailure);
  }

  /** @param {DrawingState} state */
  show(state) {
    this.view.show(state);
    if (this.drawing.movedParts.hasNewChanges()) this.storePositions();
    this.input.setWire(state.wireStart, state.ends);
  }

  /** Draws the board from its text, if the Wiring tab is in front. */
  updateFromText() {
    if (this.calls.isInFront()) this.reportFailureOf(this.drawing.refresh());
  }

  /**
   * Draws the picture again DRAW_DELAY_MS milliseconds after the last edit, if the board's text has changed and the Wiring tab is in front.
   */
  handleEdit() {
    clearTimeout(this.drawTimer);
    this.drawTimer = window.setTimeout(() => this.drawing.text !== this.calls.text() && this.updateFromText(), DRAW_DELAY_MS);
  }

  /** Discards the drawing, because another session has been opened. Loads the positions of the parts that were moved in that session. */
  handleSessionOpening() {
    this.drawing.reset();
    this.drawing.movedParts.load(this.storedPositions);
  }

  /**
   * Updates the drawing after a board was applied.
   * @param {string[]} boardLines the lines of the bench's answer to the query `board`
   */
  handleBoard(boardLines) {
    this.drawing.setSessionBoard(boardLines);
    this.updateFromText();
  }

  /**
   * Adds a part from the shelf and focuses it. Puts the part's title at `point` in the picture, or the part at its default position if
   * `point` is null. Ignores `point` if the new part becomes an element of an existing part, such as a lamp in a row of lamps.
   * @param {import("../../core/drawing/drawing_actions.js").DrawingAction} action
   * @param {import("../../core/board/wiring.js").Point | null} point
   */
  async dropPart(action, point) {
    const { drawing, picture } = this;
    const oldPartIds = new Set(picture.parts.keys());
    const text = this.calls.text();
    await drawing.performInOrder(action);
    const { selectedPart: selected } = drawing;
    if (this.calls.text() === text || selected === "") return;
    const part = [...picture.parts.values()].find(({ id, pins }) => id === selected || pins.some((pin) => pin.id === selected));
    if (part && point && !oldPartIds.has(part.id)) {
      this.movePart(part.id, { x: point.x - part.width / 2, y: point.y - TITLE_HEIGHT / 2 });
      this.storePositions();
    }
    picture.focus(selected);
  }

  async applyBoard() {
    this.drawing.showMessage(await this.calls.applyBoard());
  }

  /** The positions of dragged parts, as stored with the session. */
  get storedPositions() {
    const session = this.calls.session();
    return (session && session.record.places) || [];
  }

  /**
   * @param {string} part
   * @param {import("../../core/board/wiring.js").Point} point
   */
  movePart(part, { x, y }) {
    this.view.movedParts.set(part, { x: Math.max(0, Math.round(x)), y: Math.max(0, Math.round(y)) });
    this.view.showPicture();
  }

  /** Moves all parts to their default positions. */
  arrangeParts() {
    this.view.movedParts.clear();
    this.view.showPicture();
    this.storePositions();
  }

  storePositions() {
    const session = this.calls.session();
    if (!session) return;
    session.record.places = [...this.view.movedParts];
    this.calls.saveSession();
  }
}
