// Deletes parts of a board together with the parts that depend on them, such as the lamps at a deleted chain. All other parts stay
// connected.

import { formatQuantity } from "../bench/numbers.js";
import { Face } from "../board/face.js";
import { isMultiplexed, lampsOfGroup } from "../board/face_board.js";
import { removeColumns, removeRows, renamePorts, renumberLamps, setLineText } from "./face_edits.js";
import { BUZZER, splitTarget } from "./board_lines.js";
import { formatPartName, setRows } from "./part_addition.js";
import { removeElement, removePart, replaceValue, setValue } from "./part_edits.js";
import { ImpossibleAction } from "./edited_board.js";
import * as say from "../../words/drawing.js";

/**
 * @typedef {import("./board_lines.js").Board} Board
 * @typedef {import("./edited_board.js").EditedBoard} EditedBoard
 * @typedef {import("../text/board_reader.js").Value} Value
 *
 * The parts to delete. RAM chips have the form `bank.chip`; other parts are numbers. `keys` is true if the complete key matrix is deleted.
 * @typedef {{ roms: Set<number>, rams: Set<string>, chains: Set<number>, keys: boolean, columns: Set<number>,
 *   lamps: Set<number> }} DeletedParts
 */

/** @returns {DeletedParts} no parts to delete; the caller adds parts */
function createDeletedParts() {
  return { roms: new Set(), rams: new Set(), chains: new Set(), keys: false, columns: new Set(), lamps: new Set() };
}

/**
 * Returns whether a signal line belongs to a part to delete.
 * @param {DeletedParts} deletedParts
 * @param {string} line
 */
function isLineDeleted({ roms, rams, chains }, line) {
  const [, kind, first, second] = /** @type {RegExpExecArray} */ (/^(rom|ram|chain)(\d+)\.(\d+)/.exec(line));
  if (kind === "rom") return roms.has(Number(first));
  return kind === "chain" ? chains.has(Number(first)) : rams.has(`${first}.${second}`);
}

/**
 * Returns the lamps of the group that contains a lamp. For a lamp without a group, returns only that lamp.
 * @param {Face} face
 * @param {number} lamp
 */
export function lampsInSameGroup(face, lamp) {
  const groupWithLamp = face.groups.map(lampsOfGroup).find((lamps) => lamps.includes(lamp));
  return groupWithLamp || [lamp];
}

/**
 * Returns the display that begins at a lamp if the board editor can copy this display; otherwise undefined. The editor can copy displays
 * without decimal points and without multiplexing.
 * @param {Face} face
 * @param {number} lamp
 */
export function findDisplayAt(face, lamp) {
  return face.groups.find((group) => group.kind === "display" && group.first === lamp && (group.columns === 4 || group.columns === 7)
    && !isMultiplexed(group));
}

/**
 * Adds to `deletedParts` the parts that depend on parts in it.
 * @param {Board} board
 * @param {Face} face
 * @param {DeletedParts} deletedParts
 */
function addDependents(board, face, deletedParts) {
  board.chains.forEach(({ clock, data }, chain) => {
    if (isLineDeleted(deletedParts, clock) || isLineDeleted(deletedParts, data)) deletedParts.chains.add(chain);
  });
  const { matrix } = board;
  if (matrix) {
    matrix.columns.forEach((line, column) => isLineDeleted(deletedParts, line) && deletedParts.columns.add(column));
    deletedParts.keys = deletedParts.keys || deletedParts.chains.has(matrix.chain) || deletedParts.columns.size === matrix.columns.length;
  }
  board.lamps.forEach((line, lamp) => isLineDeleted(deletedParts, line) && deletedParts.lamps.add(lamp));
  // If one lamp of a group is deleted, all lamps of the group are deleted. This loop also visits the lamps that its body adds to the set.
  for (const deletedLamp of deletedParts.lamps) {
    const groups = face.groups.map(lampsOfGroup).filter((lamps) => lamps.includes(deletedLamp));
    for (const lamp of groups.flat()) if (lamp < board.lamps.length) deletedParts.lamps.add(lamp);
  }
}

/**
 * Removes the parts to delete from the board text.
 * @param {EditedBoard} editedBoard
 * @param {DeletedParts} deletedParts
 */
function removeDeletedParts(editedBoard, deletedParts) {
  const { matrix } = editedBoard.board;
  if (deletedParts.lamps.size > 0) removeLamps(editedBoard, deletedParts.lamps);
  if (deletedParts.keys && matrix) removeKeys(editedBoard);
  else if (deletedParts.columns.size > 0) removeKeyColumns(editedBoard, deletedParts.columns);
  for (const chain of sortDescending(deletedParts.chains)) removeChain(editedBoard, chain);
  editedBoard.deletedChains.push(...deletedParts.chains);
  for (const rom of deletedParts.roms) removeRom(editedBoard, rom);
  for (const ram of deletedParts.rams) removeRam(editedBoard, ram);
}

/**
 * Returns numbers in descending order. If parts are removed in this order, a removal does not change the numbers of the other parts to
 * remove.
 * @param {Set<number>} numbers
 */
function sortDescending(numbers) {
  return [...numbers].sort((a, b) => b - a);
}

/**
 * Removes lamps, and renumbers the other lamps in the front panel.
 * @param {EditedBoard} editedBoard
 * @param {Set<number>} lamps
 */
function removeLamps(editedBoard, lamps) {
  editedBoard.edit(renumberLamps(editedBoard.draft, lamps));
  for (const lamp of sortDescending(lamps)) editedBoard.edit(removePart(editedBoard.draft, "lamp", lamp));
}

/**
 * Removes the key matrix and the names of its keys.
 * @param {EditedBoard} editedBoard
 */
function removeKeys(editedBoard) {
  editedBoard.edit(removeRows(editedBoard.draft, 0));
  editedBoard.edit(removePart(editedBoard.draft, "keys", 0));
}

/**
 * Removes key columns and the names of their keys.
 * @param {EditedBoard} editedBoard
 * @param {Set<number>} columns
 */
function removeKeyColumns(editedBoard, columns) {
  editedBoard.edit(removeColumns(editedBoard.draft, columns));
  for (const column of sortDescending(columns)) {
    const { draft } = editedBoard;
    editedBoard.edit(removeElement(draft, draft.requireKey(draft.requirePart("keys", 0), "columns").value, column));
  }
}

/**
 * Removes a chain, and renumbers the later chains wherever their names or the names of their bits occur in the text.
 * @param {EditedBoard} editedBoard
 * @param {number} chain
 */
function removeChain(editedBoard, chain) {
  /** @type {(line: string) => string} */
  const renumberChain = (line) => line.replace(/^chain(\d+)/, (_, number) => `chain${Number(number) - (Number(number) > chain ? 1 : 0)}`);
  const { draft } = editedBoard;
  const lineValues = draft.partsOfKind("lamp").map((entry) => draft.requireKey(entry, "line").value);
  const valuesToRename = lineValues.filter(({ inner }) => renumberChain(String(inner)) !== inner);
  const chainNumbers = draft.partsOfKind("keys").map((entry) => draft.requireKey(entry, "chain").value)
    .filter(({ inner }) => Number(inner) > chain);
  editedBoard.edit([
    ...valuesToRename.map((value) => replaceValue(draft, value, renumberChain(String(value.inner)))),
    ...chainNumbers.map((value) => replaceValue(draft, value, Number(value.inner) - 1)),
  ]);
  editedBoard.edit(renamePorts(editedBoard.draft, (port) => (port === `chain${chain}` ? "" : renumberChain(port))));
  editedBoard.edit(removePart(editedBoard.draft, "chain", chain));
}

/**
 * Removes a ROM, and the front-panel lines about its port.
 * @param {EditedBoard} editedBoard
 * @param {number} rom the chip number
 */
function removeRom(editedBoard, rom) {
  editedBoard.edit(renamePorts(editedBoard.draft, (port) => (port === `rom${rom}` ? "" : port)));
  const { draft } = editedBoard;
  editedBoard.edit(removePart(draft, "rom", draft.partsOfKind("rom").indexOf(draft.partByNumber("rom", rom))));
}

/**
 * Removes a RAM chip, and the front-panel lines about its port. The chip must be the last chip of its bank.
 * @param {EditedBoard} editedBoard
 * @param {string} ram `bank.chip`
 */
function removeRam(editedBoard, ram) {
  const [bank, chip] = ram.split(".").map(Number);
  editedBoard.edit(renamePorts(editedBoard.draft, (port) => (port === `ram${ram}` ? "" : port)));
  const { draft } = editedBoard;
  const entry = draft.partByNumber("ram", bank);
  editedBoard.edit(chip > 0 ? [setValue(draft, entry, "chips", chip)] : removePart(draft, "ram", draft.partsOfKind("ram").indexOf(entry)));
}

/**
 * Adds a part to the parts to delete; throws `ImpossibleAction` if the part cannot be deleted alone.
 * @param {Board} board
 * @param {DeletedParts} deletedParts
 * @param {string} part
 */
function markDeleted(board, deletedParts, part) {
  const [kind, number] = splitTarget(part);
  if (kind === "rom") deletedParts.roms.add(number);
  else if (kind === "chain") deletedParts.chains.add(number);
  else if (kind === "lamp") deletedParts.lamps.add(number);
  else if (kind === "column") deletedParts.columns.add(number);
  else if (kind === "keys") deletedParts.keys = true;
  else if (kind === "lamps") board.lamps.forEach((_, lamp) => deletedParts.lamps.add(lamp));
  else if (kind === "ram") markRamDeleted(board, deletedParts, part.slice(4));
  else throw new ImpossibleAction(deletionErrorMessage(part));
}

/**
 * Returns the message for a part or pin that cannot be deleted.
 * @param {string} part
 */
function deletionErrorMessage(part) {
  if (part === "processor" || part === "TEST") return say.PROCESSOR_STAYS;
  if (/^(clock|data)/.test(part)) return say.CHAIN_NEEDS_LINES;
  return say.LINE_STAYS;
}

/**
 * Adds a RAM chip to the parts to delete; throws `ImpossibleAction` if it is not the last chip of its bank.
 * @param {Board} board
 * @param {DeletedParts} deletedParts
 * @param {string} ram `bank.chip`
 */
function markRamDeleted({ banks }, deletedParts, ram) {
  const [bank, chip] = ram.split(".").map(Number);
  const { chips } = banks.find((ramBank) => ramBank.bank === bank) || { chips: 0 };
  if (chip !== chips - 1) throw new ImpossibleAction(say.deleteChipFirst(bank, chips - 1));
  deletedParts.rams.add(ram);
}

/**
 * Deletes a part: `rom 1`, `ram 0.1`, `chain 0`, `keys`, `row 1` (the last row), `column 2`, `lamp 3`, `lamps`, `test` or `buzzer`. Also
 * deletes the parts that depend on this part. Returns the list of these other parts as text, "" if there are none. Throws
 * `ImpossibleAction` if the part cannot be deleted.
 * @param {EditedBoard} editedBoard
 * @param {string} part
 */
export function deletePart(editedBoard, part) {
  const { board } = editedBoard;
  if (part === "test") {
    editedBoard.edit(setLineText(editedBoard.draft, "test", "", ""));
    return "";
  }
  if (part === "buzzer" || part === BUZZER) {
    editedBoard.edit(setLineText(editedBoard.draft, "buzzer", board.buzzer || "", ""));
    return "";
  }
  if (part.startsWith("row ")) return deleteRow(editedBoard, Number(part.slice(4)));
  const deletedParts = createDeletedParts();
  markDeleted(board, deletedParts, part);
  // Two passes are enough: chains depend on ROMs and RAM chips, and keys and lamps depend on chains.
  const face = new Face(editedBoard.text);
  for (let pass = 0; pass < 2; pass++) addDependents(board, face, deletedParts);
  const description = describeDependents(board, deletedParts, part);
  removeDeletedParts(editedBoard, deletedParts);
  return description;
}

/**
 * Deletes the last key row; throws `ImpossibleAction` for any other row. Returns "" because no other part is deleted.
 * @param {EditedBoard} editedBoard
 * @param {number} row
 */
function deleteRow(editedBoard, row) {
  const { matrix } = editedBoard.board;
  if (!matrix || row !== matrix.rows - 1) throw new ImpossibleAction(say.DELETE_LAST_ROW);
  setRows(editedBoard, row);
  editedBoard.edit(removeRows(editedBoard.draft, row));
  return "";
}

/**
 * Lists, as text, the parts that are deleted because they depend on a deleted part.
 * @param {Board} board
 * @param {DeletedParts} deletedParts the part and its dependent parts
 * @param {string} part the part that the user deletes
 */
function describeDependents({ buzzer }, deletedParts, part) {
  const { chains, keys, columns, lamps } = deletedParts;
  const dependents = [...chains].map((chain) => `chain ${chain}`).filter((name) => name !== part);
  const otherLampCount = part === "lamps" || (part.startsWith("lamp ") && lamps.size === 1) ? 0 : lamps.size;
  if (keys && part !== "keys") dependents.push(formatPartName("keys"));
  else if (!keys && columns.size > 0 && !part.startsWith("column")) dependents.push(say.ofKeys(formatQuantity(columns.size, "column")));
  if (otherLampCount > 0) {
    dependents.push(part.startsWith("lamp ") ? say.allLampsOf(otherLampCount) : formatQuantity(otherLampCount, "lamp"));
  }
  if (buzzer && isLineDeleted(deletedParts, buzzer)) dependents.push(say.THE_BUZZER);
  return say.joinWithAnd(dependents);
}
