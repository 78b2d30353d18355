// The board's front panel: its title, displays, lamps, keys and the switch at its TEST pin.

import { keyHint, boardKeys } from "../../core/board/board_keys.js";
import { Brightness } from "../../core/board/brightness.js";
import { EYE_PERSISTENCE_MS } from "../../core/time/mcs4_time.js";
import { DisplayView } from "./display_view.js";
import { Cell, block, button, element, makeFirstTabStop, makeOneTabStop, makePressedSwitch } from "../ui/dom.js";
import { Face, moreErrorsMessage, sortByLine } from "../../core/board/face.js";
import { missingPartErrors } from "../../core/board/face_board.js";
import { PressedKeys } from "../../core/board/key_place.js";
import { LampsView } from "./lamps_view.js";
import * as say from "../../words/board.js";

/**
 * @typedef {import("../../core/bench/answers.js").Board} Board
 * @typedef {import("../../core/board/board_keys.js").BoardKey} BoardKey
 * @typedef {import("../../core/engine/brightness_meter.js").LitShares} LitShares
 * @typedef {BoardKey & { button: HTMLButtonElement, downSwitch: import("../ui/dom.js").Switch }} ShownKey
 */

/** The maximum number of error messages in the list. */
const MAX_LISTED_ERRORS = 20;

/**
 * Returns true if a board has neither chips nor lamps.
 * @param {Board} board
 */
function isEmptyBoard({ roms, banks, chains, lamps }) {
  return [roms, banks, chains, lamps].every((components) => components.length === 0);
}

const AVERAGED_BRIGHTNESS_TEXT = say.averagedBrightness(EYE_PERSISTENCE_MS);

/** The maximum length of a key legend that is shown in large letters. */
const MAX_LARGE_LEGEND_LENGTH = 4;

export class FrontView {
  /**
   * @param {(button: HTMLButtonElement, key: BoardKey) => void} connectKey connects a button to its key
   * @param {(face: string, number: number) => void} watchLamps asks the bench to measure the duty cycle of each lamp; `face` is the text of
   *   the front panel's comments and `number` the panel's serial number
   */
  constructor(connectKey, watchLamps) {
    this.connectKey = connectKey;
    this.watchLamps = watchLamps;
    /** @type {ShownKey[]} the keys, including the switch at TEST if the front panel has one */
    this.keys = [];
    this.keysDown = new PressedKeys();
    /** The level of the TEST pin: "0" or "1", or "" before the bench's first answer. */
    this.testLevel = "";
    /** The bench's last answer to `lamps`: one character per lamp, `*` if the lamp is on. */
    this.marks = "";
    /** The comments in the board's text that declare this front panel. */
    this.faceComments = "";
    this.columns = 1;
    this.lamps = new LampsView();
    this.display = new DisplayView();
    /** The serial number of the current front panel: 1 for the first panel that the page draws, 2 for the second; 0 before the first. */
    this.faceNumber = 0;
    this.brightness = new Brightness(new Face(""), 0);
    /** True if the lamps show their perceived brightness; false if they show their state at the last snapshot. */
    this.showsBrightness = false;
    this.brightnessStatus = new Cell(block("brightness-status"));
    this.block = block("keys");
    makeOneTabStop(this.block, () => this.columns);
  }

  /**
   * Draws a new board in place of the current one.
   * @param {Board} board
   * @param {Face} face
   */
  draw(board, face) {
    this.faceComments = face.comments;
    this.marks = "";
    this.drawFace(board, face);
  }

  /**
   * Draws a changed front panel of the same board. If the board's text has no front panel comments, the drawn front panel stays, because
   * the user may still be writing them.
   * @param {Board} board
   * @param {Face} face
   */
  changeFace(board, face) {
    this.drawErrors(board, face);
    if (this.faceComments === face.comments || face.comments === "") return;
    this.faceComments = face.comments;
    this.drawFace(board, face);
    this.showLamps(this.marks);
  }

  /**
   * @param {Board} board
   * @param {Face} face
   */
  drawFace(board, face) {
    const heading = block("front-title");
    (heading.querySelector("button") || heading).textContent = face.title || say.LAMPS_AND_KEYS;
    this.display.draw(board.lamps, face);
    this.lamps.draw(board.lamps, face);
    this.faceNumber += 1;
    this.brightness = new Brightness(face, board.lamps.length);
    this.showsBrightness = false;
    block("brightness-status").hidden = board.lamps.length === 0;
    this.watchLamps(face.comments, this.faceNumber);
    this.drawKeys(board, face);
    this.drawErrors(board, face);
  }

  /**
   * Lists the errors in the front panel's comments: malformed comments, and comments about components that the board does not have.
   * @param {Board} board
   * @param {Face} face
   */
  drawErrors(board, face) {
    const errors = sortByLine([...face.errors, ...missingPartErrors(face, board)]);
    const root = block("face-faults");
    const messages = errors.slice(0, MAX_LISTED_ERRORS).map(({ line, message }) => say.boardErrorInLine(line, message));
    const footnote = moreErrorsMessage(errors, MAX_LISTED_ERRORS);
    root.replaceChildren(...[...messages, footnote].filter(Boolean).map((message) => element("li", {}, message)));
    root.hidden = errors.length === 0;
  }

  /**
   * @param {Board} board
   * @param {Face} face
   */
  drawKeys(board, face) {
    this.columns = Math.max(1, board.columns);
    this.block.style.setProperty("--columns", String(this.columns));
    this.block.classList.toggle("many", this.columns > 5);
    this.keys = boardKeys(board, face).map((key) => this.makeKey(key));
    this.block.replaceChildren(...this.keys.map((key) => key.button));
    this.block.hidden = this.keys.length === 0;
    block("typing-label").hidden = this.keys.length === 0;
    // A switch at TEST on the front panel replaces the page's TEST button.
    button("test").hidden = face.test !== null;
    makeFirstTabStop(this.block);
    block("keys-hint").textContent = isEmptyBoard(board) ? "" : keyHint(this.keys);
    this.updateKeyButtons();
  }

  /**
   * @param {BoardKey} boardKey
   * @returns {ShownKey}
   */
  makeKey(boardKey) {
    const keyButton = element("button", { type: "button", className: "key", disabled: boardKey.legend === "" },
      element("b", {}, boardKey.legend));
    keyButton.classList.toggle("unnamed", !boardKey.isNamed);
    keyButton.classList.toggle("long", boardKey.legend.length > MAX_LARGE_LEGEND_LENGTH);
    keyButton.title = boardKey.legend.length > MAX_LARGE_LEGEND_LENGTH ? boardKey.legend : "";
    keyButton.classList.toggle("at-test", boardKey.key.kind === "pin");
    keyButton.classList.toggle("switch", boardKey.isSwitch);
    if (boardKey.letter && boardKey.letter !== boardKey.legend) keyButton.append(element("kbd", {}, boardKey.letter));
    keyButton.setAttribute("aria-label", boardKey.description);
    this.connectKey(keyButton, boardKey);
    return { ...boardKey, button: keyButton, downSwitch: makePressedSwitch(keyButton) };
  }

  /** @param {string} marks one character per lamp: `*` if the lamp is on at this instant */
  showLamps(marks) {
    this.marks = marks;
    this.showsBrightness = false;
    this.brightnessStatus.set(say.AT_INSTANT);
    this.lamps.show(marks);
    this.display.show(marks);
  }

  /**
   * Shows the lamps as perceived during the last frame.
   * @param {string} marks one character per lamp: `*` if the lamp is on at the end of the frame
   * @param {LitShares} litShares
   * @param {number} time the duration of the frame in milliseconds; Infinity if earlier light must be ignored
   */
  showBrightness(marks, litShares, time) {
    if (!this.showsBrightness) this.brightness.begin(this.marks);
    this.showsBrightness = true;
    this.marks = marks;
    this.brightnessStatus.set(AVERAGED_BRIGHTNESS_TEXT);
    this.brightness.add(litShares, time);
    this.lamps.showBrightness(this.brightness);
    this.display.showBrightness(this.brightness);
  }

  /**
   * Shows which keys are down.
   * @param {string[]} downKeys the keys that the bench reports as down
   */
  showKeys(downKeys) {
    this.keysDown = new PressedKeys(downKeys);
    this.updateKeyButtons();
  }

  updateKeyButtons() {
    for (const shownKey of this.keys) shownKey.downSwitch.set(this.isDown(shownKey.key));
  }

  /** @param {string} level the level of the TEST pin: "0" or "1" */
  showTestPin(level) {
    if (this.testLevel === level) return;
    this.testLevel = level;
    this.updateKeyButtons();
  }

  /** @param {import("../../core/board/key_place.js").Key} key */
  isDown(key) {
    return this.keysDown.has(key, this.testLevel);
  }
}
