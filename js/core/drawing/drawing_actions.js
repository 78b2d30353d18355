// Translates an action in the board drawing into edits of the board text. If the action is impossible, returns a message instead. Only the
// bench decides whether the resulting text is valid.

import { signalLines } from "../bench/board_form.js";
import { formatQuantity } from "../bench/numbers.js";
import { Face } from "../board/face.js";
import { BUZZER, parseChainBit, canConnect, targetName, splitTarget, mapInputsToLines } from "./board_lines.js";
import {
  INPUT_MASK, OUTPUT_MASK, addBuzzer, addChain, addColumn, addDisplay, addKeys, addLamp, addRam, addRom, addMultiplexedDisplay,
  formatPartName, ensureRom, checkFrontPanelOutputs, setChips, setRows,
} from "./part_addition.js";
import { deletePart, findDisplayAt, lampsInSameGroup } from "./part_deletion.js";
import { COLOURS, setLampColour, moveBuzzer, setKeyName, setLampName, setLineText, toWord } from "./face_edits.js";
import { replaceValue, setValue } from "./part_edits.js";
import { ImpossibleAction, EditedBoard } from "./edited_board.js";
import * as say from "../../words/drawing.js";

/**
 * @typedef {import("./text_edits.js").TextEdit} TextEdit
 *
 * The actions of the board editor:
 * - `add`: adds a part from the shelf. `line` is the signal line of a lamp or buzzer (by default, a free line). `digits` is the number of
 *   digits of a display.
 * - `wire`: connects a signal line to an input.
 * - `port`: makes a ROM line an input (`mode` is `i`), or an output that RDR reads as `0` or `1`.
 * - `chips`, `rows`: sets the number of chips in a chain, or the number of key rows.
 * - `column`: adds a key column.
 * - `delete`, `copy`: deletes a part, or adds a copy of the part.
 * - `name`: names a part, a key (`key ROW COLUMN`), the board (`title`), or the button or switch at the TEST pin (`test`). "" removes the
 *   name.
 * - `colour`: sets the lamp colour; "" selects the default colour.
 *
 * @typedef {{ kind: "add", part: ShelfPart, line?: string, digits?: number } | { kind: "wire", line: string, target: string }
 *   | { kind: "port", line: string, mode: string } | { kind: "chips", chain: number, chips: number } | { kind: "rows", rows: number }
 *   | { kind: "column" } | { kind: "delete", part: string } | { kind: "copy", part: string }
 *   | { kind: "name", part: string, name: string } | { kind: "colour", lamp: number, colour: string }} DrawingAction
 *
 * A kind of part on the shelf. `rom` is a ROM with outputs, and `inputs` is a ROM with inputs. `digit` is a display with BCD digits,
 * `segments` is a display with seven-segment digits, and `scanned` is a multiplexed display.
 * @typedef {"rom" | "inputs" | "ram" | "chain" | "keys" | "lamp" | "digit" | "segments" | "scanned" | "button" | "switch"
 *   | "buzzer"} ShelfPart
 *
 * The result of an action: the edits in order, the text after all edits, the affected part ("" for none), a message, and the
 * numbers of the deleted chains. If the action is impossible, `refusal` is a message and there are no edits; otherwise `refusal` is "".
 * @typedef {{ edits: TextEdit[], text: string, part: string, message: string, deletedChains: number[], refusal: string }} ActionResult
 */

/** @type {ShelfPart[]} the kinds of parts on the shelf, in order */
export const SHELF_PARTS = ["rom", "inputs", "ram", "chain", "keys", "lamp", "button", "switch", "buzzer", "digit", "segments", "scanned"];

/**
 * Adds a part from the shelf; returns its name.
 * @param {EditedBoard} editedBoard
 * @param {Extract<DrawingAction, { kind: "add" }>} action
 * @returns {string}
 */
function addFromShelf(editedBoard, { part, line, digits = 1 }) {
  switch (part) {
    case "scanned": return addMultiplexedDisplay(editedBoard, digits);
    case "rom": return addRom(editedBoard, OUTPUT_MASK);
    case "inputs": return addRom(editedBoard, INPUT_MASK);
    case "ram":
      ensureRom(editedBoard);
      return addRam(editedBoard);
    case "chain": return addChain(editedBoard);
    case "keys": return addKeys(editedBoard);
    case "lamp": return addLamp(editedBoard, line);
    case "buzzer": return addBuzzer(editedBoard, line);
    case "digit": case "segments": return addDisplay(editedBoard, part, digits);
    default: return addTestPinPart(editedBoard, part);
  }
}

/**
 * Adds a button or switch at the TEST pin; returns the name of the part. Throws `ImpossibleAction` if the pin already has one.
 * @param {EditedBoard} editedBoard
 * @param {"button" | "switch"} kind
 */
function addTestPinPart(editedBoard, kind) {
  if (new Face(editedBoard.text).test) throw new ImpossibleAction(say.TEST_IN_USE);
  ensureRom(editedBoard);
  editedBoard.edit(setLineText(editedBoard.draft, "test", "", `${kind} ${kind === "button" ? "PUSH" : "RUN"}`));
  return "test";
}

/**
 * Connects a signal line to an input; throws `ImpossibleAction` if the connection is not allowed.
 * @param {EditedBoard} editedBoard
 * @param {string} name the name of the line
 * @param {string} target the name of the input
 */
function connectLine(editedBoard, name, target) {
  const { board, draft } = editedBoard;
  const line = signalLines(board).find((boardLine) => boardLine.name === name);
  if (!line || !mapInputsToLines(board).has(target)) throw new ImpossibleAction(say.boardHasNoMessage(line ? target : name));
  if (!canConnect(board, line, target)) throw new ImpossibleAction(wireErrorMessage(line, target));
  const [kind, number] = splitTarget(target);
  if (kind === "clock" || kind === "data") editedBoard.edit([setValue(draft, draft.requirePart("chain", number), kind, name)]);
  if (kind === "lamp") editedBoard.edit([setValue(draft, draft.requirePart("lamp", number), "line", name)]);
  if (kind === "buzzer") editedBoard.edit(moveBuzzer(draft, name));
  if (kind === "column") {
    const columns = draft.requireKey(draft.requirePart("keys", 0), "columns").value;
    editedBoard.edit([replaceValue(draft, /** @type {import("../text/board_reader.js").Value[]} */ (columns.inner)[number], name)]);
  }
  if (kind === "row") {
    const { chain, bit } = parseChainBit(name);
    const keys = draft.requirePart("keys", 0);
    editedBoard.edit([setValue(draft, keys, "chain", chain), setValue(draft, keys, "first", bit - number)]);
  }
}

/**
 * Returns the message for a signal line that cannot be connected to an input.
 * @param {import("../bench/board_form.js").BoardLine} line
 * @param {string} target
 */
function wireErrorMessage({ name, kind, isInput }, target) {
  const [inputKind] = splitTarget(target);
  if (inputKind === "column") return say.needsInput(name, targetName(target));
  if (isInput) return say.needsOutput(name, targetName(target));
  if (inputKind === "row") return say.cannotDriveMessage(name);
  return say.needsChipLine(name, kind, targetName(target));
}

/**
 * Makes a ROM port line an input or an output; throws `ImpossibleAction` if a connected part needs the current direction.
 * @param {EditedBoard} editedBoard
 * @param {string} line
 * @param {string} mode `i` for an input, `0` or `1` for an output that RDR reads as this value
 */
function setLineMode(editedBoard, line, mode) {
  const [chip, portLine] = line.replace("rom", "").split(".").map(Number);
  const { draft, board } = editedBoard;
  const entry = draft.partByNumber("rom", chip);
  const port = String(draft.requireKey(entry, "port").value.inner);
  const targets = [...mapInputsToLines(board)].filter(([target, name]) => name === line && target !== BUZZER).map(([target]) => target);
  const changesDirection = (port[3 - portLine] === "i") !== (mode === "i");
  if (changesDirection && targets.length > 0) {
    throw new ImpossibleAction(say.lineInUse(line, targets.map(targetName).join(say.AND)));
  }
  checkFrontPanelOutputs(editedBoard, (outputLine) => changesDirection && outputLine === line);
  editedBoard.edit([setValue(draft, entry, "port", port.slice(0, 3 - portLine) + mode + port.slice(4 - portLine))]);
}

/**
 * Adds a copy of a part; returns the name of the copy. If the part is the first lamp of a display, copies the display. Throws
 * `ImpossibleAction` if the part cannot be copied.
 * @param {EditedBoard} editedBoard
 * @param {string} part
 */
function copyPart(editedBoard, part) {
  const { board, text } = editedBoard;
  const [kind, number] = splitTarget(part);
  const face = new Face(text);
  if (kind === "rom") return addRom(editedBoard, (board.roms.find(({ chip }) => Number(chip) === number) || { port: OUTPUT_MASK }).port);
  if (kind === "ram") return addRam(editedBoard);
  if (kind === "chain") return addChain(editedBoard, board.chains[number].chips);
  if (kind !== "lamp") throw new ImpossibleAction(say.ONLY_ONCE);
  const display = findDisplayAt(face, number);
  if (display) return addDisplay(editedBoard, display.columns < 7 ? "digit" : "segments", display.rows);
  if (lampsInSameGroup(face, number).length > 1) throw new ImpossibleAction(say.COPY_ONLY_IN_TEXT);
  return addLamp(editedBoard, "", (face.colours.get(number) || { text: "" }).text);
}

/**
 * Renames a lamp; throws `ImpossibleAction` if the grid of the front panel would then show other lamps.
 * @param {EditedBoard} editedBoard
 * @param {number} lamp
 * @param {string} name
 */
function renameLamp(editedBoard, lamp, name) {
  /** @type {(text: string) => string} */
  const describeGrid = (text) => new Face(text).grid.map((gridLamp) => `${gridLamp.row} ${gridLamp.column} ${gridLamp.lamp}`).join();
  const grid = describeGrid(editedBoard.text);
  editedBoard.edit(setLampName(editedBoard.draft, lamp, name));
  if (describeGrid(editedBoard.text) !== grid) throw new ImpossibleAction(say.NAME_WOULD_CHANGE_GRID);
}

/**
 * Renames a part, a key, the board, or the button or switch at the TEST pin; throws `ImpossibleAction` if the name is not allowed.
 * @param {EditedBoard} editedBoard
 * @param {string} part the `part` of a `name` action
 * @param {string} name the new name, "" for none
 */
function renamePart(editedBoard, part, name) {
  const { draft, text, board } = editedBoard;
  const [kind, number] = splitTarget(part);
  if (kind === "lamp") renameLamp(editedBoard, number, name);
  else if (kind === "key") editedBoard.edit(setKeyName(draft, { row: number, column: Number(part.split(" ")[2]) }, name));
  else if (kind === "title") editedBoard.edit(setLineText(draft, "title", "", name));
  else if (kind === "test") {
    const { test } = new Face(text);
    if (!test || toWord(name) === "") throw new ImpossibleAction(say.TEST_NEEDS_NAME);
    editedBoard.edit(setLineText(draft, "test", "", `${test.kind} ${toWord(name)}${test.level ? " to 1" : ""}`));
  } else if (kind === "buzzer") {
    if (!board.buzzer || name.trim() === "") throw new ImpossibleAction(say.BUZZER_NEEDS_NAME);
    editedBoard.edit(setLineText(draft, "buzzer", board.buzzer, name));
  } else if (["rom", "ram", "chain"].includes(kind)) editedBoard.edit(setLineText(draft, "port", part.replace(" ", ""), name));
  else throw new ImpossibleAction(say.CANNOT_BE_NAMED);
}

/**
 * Sets the colour of a lamp; throws `ImpossibleAction` for an unknown colour.
 * @param {EditedBoard} editedBoard
 * @param {number} lamp
 * @param {string} colour the new colour; "" selects the default colour
 */
function setColour(editedBoard, lamp, colour) {
  if (colour !== "" && !COLOURS.has(colour)) throw new ImpossibleAction(say.noColourMessage(colour, [...COLOURS].join(", ")));
  editedBoard.edit(setLampColour(editedBoard.draft, lamp, colour));
}

/**
 * Returns the message after an action on a part, such as `ROM 1 was added`.
 * @param {string} part
 * @param {string} participle such as `added`
 */
function completionMessage(part, participle) {
  return `${capitalize(formatPartName(part))} ${part === "keys" || part === "lamps" ? "were" : "was"} ${participle}`;
}

/**
 * Returns the text with an upper-case first letter.
 * @param {string} text
 */
function capitalize(text) {
  return text.charAt(0).toUpperCase() + text.slice(1);
}

/**
 * Performs an action; returns the name of the affected part and the message.
 * @param {EditedBoard} editedBoard
 * @param {DrawingAction} action
 * @returns {[string, string]}
 */
function perform(editedBoard, action) {
  const { board } = editedBoard;
  switch (action.kind) {
    case "add": {
      const part = addFromShelf(editedBoard, action);
      const isDisplay = ["digit", "segments", "scanned"].includes(action.part);
      const digits = action.digits || 1;
      return [part, isDisplay ? say.displayAdded(formatQuantity(digits, "digit")) : completionMessage(part, "added")];
    }
    case "copy": {
      const part = copyPart(editedBoard, action.part);
      return [part, say.copyAdded(capitalize(formatPartName(part)), formatPartName(action.part))];
    }
    case "wire":
      connectLine(editedBoard, action.line, action.target);
      return [action.target, say.lineWired(action.line, targetName(action.target))];
    case "port":
      setLineMode(editedBoard, action.line, action.mode);
      return [action.line, say.lineDirectionSet(action.line, action.mode === "i" ? say.INPUT : say.outputReadsAs(action.mode))];
    case "chips":
      return [setChips(editedBoard, action.chain, action.chips), say.chainResized(action.chain, formatQuantity(action.chips, "chip"))];
    case "rows":
      if (board.matrix && action.rows < board.matrix.rows) deletePart(editedBoard, `row ${action.rows}`);
      else setRows(editedBoard, action.rows);
      return ["keys", say.keyRowsSet(formatQuantity(action.rows, "row"))];
    case "column": return [addColumn(editedBoard), say.COLUMN_ADDED];
    case "delete": {
      const message = deletePart(editedBoard, action.part);
      return ["", `${completionMessage(action.part, "deleted")}${message && say.andWithIt(message)}`];
    }
    case "name":
      renamePart(editedBoard, action.part, action.name);
      return [action.part, say.partNamed(capitalize(formatPartName(action.part)), action.name.trim())];
    case "colour":
      setColour(editedBoard, action.lamp, action.colour);
      return [`lamp ${action.lamp}`, say.lampColoured(action.lamp, action.colour || say.USUAL_RED)];
  }
}

/**
 * Returns the message for a front-panel error that an action has caused; "" if the action has caused none.
 * @param {string} textBefore the text before the action
 * @param {string} textAfter the text after the action
 */
function findNewPanelError(textBefore, textAfter) {
  const oldMessages = new Face(textBefore).errors.map(({ message }) => message.replace(/\d+/g, ""));
  const { errors } = new Face(textAfter);
  if (errors.length <= oldMessages.length) return "";
  const [newError] = errors.filter(({ message }) => !oldMessages.includes(message.replace(/\d+/g, "")));
  return newError ? `${capitalize(newError.message)}.` : say.FRONT_PANEL_UNREADABLE;
}

/**
 * Performs an action on a board text, and returns the result.
 * @param {string} text
 * @param {DrawingAction} action
 * @returns {ActionResult}
 */
export function applyAction(text, action) {
  const unchangedResult = { edits: [], text, part: "", message: "", deletedChains: [] };
  const editedBoard = new EditedBoard(text);
  if (!editedBoard.draft.isToml || !editedBoard.draft.boardAnswers) return { ...unchangedResult, refusal: say.TEXT_HAS_ERRORS };
  try {
    const [part, message] = perform(editedBoard, action);
    const panelError = findNewPanelError(text, editedBoard.text);
    if (panelError) return { ...unchangedResult, refusal: panelError };
    const addedPartsText = editedBoard.addedParts.length > 0 ? say.withAddedParts(say.joinWithAnd(editedBoard.addedParts)) : "";
    const { edits, deletedChains } = editedBoard;
    return { edits, text: editedBoard.text, part, message: `${message}${addedPartsText}.`, deletedChains, refusal: "" };
  } catch (error) {
    if (!(error instanceof ImpossibleAction)) throw error;
    return { ...unchangedResult, refusal: error.message };
  }
}

/**
 * Returns the reason why a part from the shelf cannot be added; "" if it can be added.
 * @param {string} text
 * @param {ShelfPart} part
 */
export function reasonNotToAdd(text, part) {
  return applyAction(text, { kind: "add", part }).refusal;
}

/**
 * Returns whether the page reads the same board from a board text as the bench does. If not, the board editor cannot edit the text.
 * @param {string} text
 * @param {string[]} answers the bench's answer to `board` after `wire` with the text
 */
export function matchesBench(text, answers) {
  return new EditedBoard(text).draft.matchesAnswers(answers);
}
