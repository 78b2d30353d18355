// Creates the form for the selected part or pin, with fields such as the name, the colour, the signal line and the number of chips. Each
// field has a function that returns the action for a new value.

import { indices } from "../bench/numbers.js";
import { COLOURS } from "../board/face_words.js";
import { VALUE_RANGES, signalLines } from "../bench/board_form.js";
import { findDisplayAt, lampsInSameGroup } from "./part_deletion.js";
import { BUZZER, targetName, listPossibleSources, splitTarget, mapInputsToLines } from "./board_lines.js";
import * as say from "../../words/drawing.js";

/**
 * @typedef {import("./board_lines.js").Board} Board
 * @typedef {import("../board/face.js").Face} Face
 * @typedef {import("./drawing_actions.js").DrawingAction} DrawingAction
 *
 * A field of the form: its label, its value, its options (null for free text), and a function that returns the action for a new value. An
 * option is a value and its displayed text (`label`).
 * @typedef {{ label: string, value: string, options: { value: string, label: string }[] | null,
 *   createAction: (value: string) => DrawingAction }} Field
 *
 * A button of the form: its label and its action.
 * @typedef {{ label: string, action: DrawingAction }} Button
 *
 * The form for the selection: its title, the name of the part in the board text ("" for none), its fields and its buttons.
 * @typedef {{ title: string, part: string, fields: Field[], buttons: Button[] }} SelectionForm
 */

/**
 * Creates a field for free text. The field shows blanks instead of the underscores in the value.
 * @param {string} label
 * @param {string} value
 * @param {(value: string) => DrawingAction} createAction
 * @returns {Field}
 */
function textField(label, value, createAction) {
  return { label, value: value.replace(/_/g, " "), options: null, createAction };
}

/**
 * Creates a field with options to choose from.
 * @param {string} label
 * @param {string} value
 * @param {string[] | { value: string, label: string }[]} options
 * @param {(value: string) => DrawingAction} createAction
 * @returns {Field}
 */
function choiceField(label, value, options, createAction) {
  const labelledOptions = options.map((option) => (typeof option === "string" ? { value: option, label: option } : option));
  return { label, value, options: labelledOptions, createAction };
}

/**
 * Returns the numbers of a range as strings.
 * @param {{ from: number, to: number }} range
 */
function listNumbersInRange({ from, to }) {
  return indices(to + 1).slice(from).map(String);
}

/**
 * Returns the field for the signal line that is connected to an input.
 * @param {Board} board
 * @param {string} target the name of the input
 * @param {string} [label] the displayed name of the input
 */
function lineField(board, target, label = targetName(target)) {
  const currentLine = mapInputsToLines(board).get(target) || "";
  const sources = listPossibleSources(board, target);
  return choiceField(say.lineFieldLabel(label), currentLine, sources, (line) => ({ kind: "wire", line, target }));
}

/**
 * Returns the field for the name of a port or chain.
 * @param {Face} face
 * @param {string} part
 */
function portNameField(face, part) {
  const faceText = face.ports.get(part.replace(" ", ""));
  return textField(say.WHAT_IS_THERE, faceText ? faceText.text : "", (name) => ({ kind: "name", part, name }));
}

/**
 * Returns the field for the direction of a ROM port line.
 * @param {string} line
 * @param {string} port the port mask of the ROM
 * @returns {Field}
 */
function directionField(line, port) {
  const lineNumber = Number(line.split(".")[1]);
  const options = say.DIRECTIONS.map(([value, optionLabel]) => ({ value, label: optionLabel }));
  return choiceField(say.lineDirectionLabel(lineNumber), port[3 - lineNumber], options, (mode) => ({ kind: "port", line, mode }));
}

/** @type {(part: string) => Button} returns the button that copies a part */
const createCopyButton = (part) => ({ label: say.COPY, action: { kind: "copy", part } });
/** @type {(part: string, label?: string) => Button} returns the button that deletes a part */
const createDeleteButton = (part, label = say.DELETE) => ({ label, action: { kind: "delete", part } });

/**
 * Returns the form for a ROM.
 * @param {Board} board
 * @param {Face} face
 * @param {string} part
 * @returns {SelectionForm}
 */
function romForm(board, face, part) {
  const chip = splitTarget(part)[1];
  const rom = board.roms.find((romChip) => Number(romChip.chip) === chip);
  const port = rom ? rom.port : "0000";
  const lineFields = indices(4).map((portLine) => directionField(`rom${chip}.${portLine}`, port));
  const fields = [portNameField(face, part), ...lineFields];
  return { title: say.romWithPort(chip), part, fields, buttons: [createCopyButton(part), createDeleteButton(part)] };
}

/**
 * Returns the form for a chain.
 * @param {Board} board
 * @param {Face} face
 * @param {string} part
 * @returns {SelectionForm}
 */
function chainForm(board, face, part) {
  const chainNumber = splitTarget(part)[1];
  const chipCounts = listNumbersInRange(VALUE_RANGES["chain.chips"]);
  const chipsField = choiceField("chips", String(board.chains[chainNumber].chips), chipCounts, (value) => (
    { kind: "chips", chain: chainNumber, chips: Number(value) }));
  const lineFields = [lineField(board, `clock ${chainNumber}`, "clock"), lineField(board, `data ${chainNumber}`, "data")];
  const fields = [portNameField(face, part), ...lineFields, chipsField];
  return { title: say.chainOfChips(chainNumber), part, fields, buttons: [createCopyButton(part), createDeleteButton(part)] };
}

/**
 * Returns the form for the key matrix.
 * @param {Board} board
 * @param {Face} face
 * @returns {SelectionForm}
 */
function keysForm(board, face) {
  const rowsField = choiceField("rows", String(board.rows), listNumbersInRange(VALUE_RANGES["keys.rows"]), (value) => (
    { kind: "rows", rows: Number(value) }));
  const columnFields = indices(board.columns).map((column) => lineField(board, `column ${column}`, `column ${column}`));
  const nameFields = indices(board.rows).flatMap((row) => indices(board.columns).map((column) => {
    const faceText = face.keys.get(`${row} ${column}`);
    return textField(`key ${row}.${column}`, faceText ? faceText.text : "", (name) => (
      { kind: "name", part: `key ${row} ${column}`, name }));
  }));
  const columnButton = { label: say.ANOTHER_COLUMN, action: /** @type {DrawingAction} */ ({ kind: "column" }) };
  const fields = [rowsField, lineField(board, "row 0", "row 0"), ...columnFields, ...nameFields];
  return { title: say.KEYS, part: "keys", fields, buttons: [columnButton, createDeleteButton("keys")] };
}

/**
 * Returns the form for a lamp.
 * @param {Board} board
 * @param {Face} face
 * @param {number} lamp
 * @returns {SelectionForm}
 */
function lampForm(board, face, lamp) {
  const part = `lamp ${lamp}`;
  const groupLamps = lampsInSameGroup(face, lamp);
  const isSingle = groupLamps.length === 1;
  // All lamps of a group have the colour of its first lamp.
  const [name, colour] = [face.lamps.get(lamp), face.colours.get(groupLamps[0])];
  const fields = [
    textField("name", name ? name.text : "", (value) => ({ kind: "name", part, name: value })),
    choiceField("colour", colour ? colour.text : "red", [...COLOURS], (value) => ({ kind: "colour", lamp: groupLamps[0], colour: value })),
    lineField(board, part, "lamp"),
  ];
  const copyButtons = findDisplayAt(face, groupLamps[0]) ? [{ ...createCopyButton(`lamp ${groupLamps[0]}`), label: say.COPY_DISPLAY }] : [];
  const groupButtons = [...copyButtons, createDeleteButton(part, say.deleteLamps(groupLamps.length))];
  const buttons = isSingle ? [createCopyButton(part), createDeleteButton(part)] : groupButtons;
  return { title: say.lampTitle(lamp), part, fields, buttons };
}

/**
 * Returns the form for the buzzer.
 * @param {Board} board
 * @param {Face} face
 * @returns {SelectionForm}
 */
function buzzerForm(board, { buzzer }) {
  const name = textField("name", buzzer ? buzzer.name : "", (value) => ({ kind: "name", part: "buzzer", name: value }));
  const fields = [name, lineField(board, BUZZER, "buzzer")];
  return { title: say.THE_BUZZER_TITLE, part: "buzzer", fields, buttons: [createDeleteButton("buzzer")] };
}

/**
 * Returns the form for a RAM chip.
 * @param {Face} face
 * @param {string} part
 * @returns {SelectionForm}
 */
function ramForm(face, part) {
  const title = say.ramWithPort(part.slice(4));
  const buttons = [createCopyButton(part), createDeleteButton(part)];
  return { title, part: part.split(".")[0], fields: [portNameField(face, part)], buttons };
}

/**
 * Returns the form for a port line or a chain bit.
 * @param {Board} board
 * @param {string} name
 * @returns {SelectionForm}
 */
function lineForm(board, name) {
  const line = signalLines(board).find((boardLine) => boardLine.name === name);
  const rom = line && line.kind === "rom" ? board.roms.find(({ chip }) => name.startsWith(`rom${chip}.`)) : null;
  const isInput = line !== undefined && line.isInput;
  /** @type {Button[]} */
  const buttons = line && !isInput ? [{ label: say.LAMP_HERE, action: { kind: "add", part: "lamp", line: name } }] : [];
  if (line && !isInput && !board.buzzer) buttons.push({ label: say.BUZZER_HERE, action: { kind: "add", part: "buzzer", line: name } });
  const [, kind, number] = /^([a-z]+)(\d+)/.exec(name) || ["", "", ""];
  const fields = rom ? [directionField(name, rom.port)] : [];
  return { title: say.lineTitle(name, isInput), part: `${kind} ${number}`, fields, buttons };
}

/**
 * Returns the form for an input of a chain or the keys.
 * @param {Board} board
 * @param {string} target
 * @returns {SelectionForm}
 */
function targetForm(board, target) {
  const [kind, number] = splitTarget(target);
  const canDelete = kind === "column" || (kind === "row" && number === board.rows - 1 && number > 0);
  const name = targetName(target);
  const title = name.charAt(0).toUpperCase() + name.slice(1);
  const part = kind === "row" || kind === "column" ? "keys" : `chain ${number}`;
  return { title, part, fields: [lineField(board, target, say.LOCATION_LABEL)], buttons: canDelete ? [createDeleteButton(target)] : [] };
}

/**
 * Returns the form for the selection. If nothing or a part without a form is selected, returns the form for the whole board.
 * @param {Board} board
 * @param {Face} face
 * @param {string} selection the selected part or pin
 * @returns {SelectionForm}
 */
export function selectionForm(board, face, selection) {
  const [kind, number] = splitTarget(selection);
  if (kind === "rom") return romForm(board, face, selection);
  if (kind === "chain") return chainForm(board, face, selection);
  if (kind === "keys") return keysForm(board, face);
  if (kind === "lamp") return lampForm(board, face, number);
  if (kind === "ram") return ramForm(face, selection);
  if (kind === "buzzer" && board.buzzer) return buzzerForm(board, face);
  if (kind === "lamps") {
    return { title: say.ALL_LAMPS, part: "lamp 0", fields: [], buttons: [createDeleteButton("lamps", say.DELETE_ALL_LAMPS)] };
  }
  if (kind === "test" && face.test) {
    const name = textField("name", face.test.name, (value) => ({ kind: "name", part: "test", name: value }));
    return { title: say.atTest(face.test.kind), part: "test", fields: [name], buttons: [createDeleteButton("test")] };
  }
  if (mapInputsToLines(board).has(selection)) return targetForm(board, selection);
  if (selection.includes(".")) return lineForm(board, selection);
  const title = textField("title", face.title, (name) => ({ kind: "name", part: "title", name }));
  return { title: say.BOARD_TITLE, part: "", fields: [title], buttons: [] };
}
