// Creates text edits for the front panel in a board text: edits that set names and colours. When parts are deleted, the edits remove their
// front-panel entries and renumber the remaining entries.

import { COLOURS, LINE_KINDS } from "../board/face_words.js";
import { addFaceLine, faceLines, firstNumber, removeFaceLine, removeWords, setWord } from "./face_lines.js";

/**
 * @typedef {import("./board_draft.js").BoardDraft} BoardDraft
 * @typedef {import("./face_lines.js").FaceLine} FaceLine
 * @typedef {import("./text_edits.js").TextEdit} TextEdit
 */

export { COLOURS };
/** The kinds of front-panel lines that have a row number before the colon. */
const ROW_KINDS = ["row", "grid"];
/** The kinds of front-panel lines that have a lamp number before the colon. */
const LAMP_KINDS = new Set(
  [...LINE_KINDS].filter(([name, { head }]) => head.startsWith("N") && !ROW_KINDS.includes(name)).map(([name]) => name),
);
/** The kinds of front-panel lines that have a port or a port line before the colon. */
const PORT_KINDS = ["port", "buzzer", "printer"];
/** The list entry for a lamp or key that has no name or colour. */
const EMPTY_ENTRY = "_";

/**
 * Converts a name to one word, with underscores instead of blanks.
 * @param {string} name
 */
export function toWord(name) {
  return name.trim().replace(/[ \t]+/g, "_");
}

/**
 * Returns the edits that set the name or colour of a lamp. The edits change the list that contains the lamp, extend the list that ends
 * directly before the lamp, or add a line. They remove a list that would contain no name or colour.
 * @param {BoardDraft} draft
 * @param {"lamp" | "colour"} kind
 * @param {number} lamp
 * @param {string} text the name or colour, "" for none
 * @returns {TextEdit[]}
 */
function setListWord(draft, kind, lamp, text) {
  const linesWithLists = faceLines(draft).filter((line) => line.kind === kind && line.first && !line.last);
  const containingLine = linesWithLists.find((line) => firstNumber(line) <= lamp && lamp < firstNumber(line) + line.words.length);
  if (containingLine) {
    const otherWords = containingLine.words.filter((_, index) => firstNumber(containingLine) + index !== lamp);
    if (text === "" && otherWords.every((word) => word.text === EMPTY_ENTRY)) return [removeFaceLine(draft, containingLine)];
    return setWord(containingLine.words[lamp - firstNumber(containingLine)], text || EMPTY_ENTRY);
  }
  if (text === "") return [];
  const precedingList = linesWithLists.find((line) => firstNumber(line) + line.words.length === lamp);
  if (precedingList) return [{ from: precedingList.end, to: precedingList.end, insert: ` ${text}` }];
  return addFaceLine(draft, kind, `# ${kind} ${lamp}: ${text}`);
}

/**
 * Returns the edits that set the name of a lamp, in its list of names and in the grid rows that contain the old name.
 * @param {BoardDraft} draft
 * @param {number} lamp
 * @param {string} name "" for none
 */
export function setLampName(draft, lamp, name) {
  const word = toWord(name);
  const lines = faceLines(draft);
  const nameLine = lines.find((line) => line.kind === "lamp" && firstNumber(line) <= lamp && lamp < firstNumber(line) + line.words.length);
  const oldName = nameLine && nameLine.words[lamp - firstNumber(nameLine)].text;
  const gridWords = lines.filter(({ kind }) => kind === "grid").flatMap(({ words }) => words)
    .filter(({ text }) => text === oldName && text !== EMPTY_ENTRY);
  return [...setListWord(draft, "lamp", lamp, word), ...gridWords.flatMap((gridWord) => setWord(gridWord, word || String(lamp)))];
}

/**
 * Returns the edits that set the colour of a lamp. A colour range that contains the lamp becomes a list of colours, unless all its colours
 * are then equal.
 * @param {BoardDraft} draft
 * @param {number} lamp
 * @param {string} colour the new colour; "" selects the default colour
 * @returns {TextEdit[]}
 */
export function setLampColour(draft, lamp, colour) {
  const rangeLine = faceLines(draft).find((line) => line.kind === "colour" && line.last && firstNumber(line) <= lamp
    && lamp <= Number(line.last.text));
  if (!rangeLine || !rangeLine.first || !rangeLine.last) return setListWord(draft, "colour", lamp, colour);
  const first = firstNumber(rangeLine);
  const [oldColour = { text: EMPTY_ENTRY }] = rangeLine.words;
  const count = Number(rangeLine.last.text) - first + 1;
  const colours = Array.from({ length: count }, (_, index) => (first + index === lamp ? colour || EMPTY_ENTRY : oldColour.text));
  const isUniform = colours.every((word) => word === colours[0]);
  if (isUniform) return colours[0] === EMPTY_ENTRY ? [removeFaceLine(draft, rangeLine)] : setWord(rangeLine.words[0], colours[0]);
  return [{ from: rangeLine.first.to, to: rangeLine.end, insert: `: ${colours.join(" ")}` }];
}

/**
 * Returns the edits that set the name of a key. If the list of names in its row is too short, the keys before this key get their default
 * names, such as `0.1`.
 * @param {BoardDraft} draft
 * @param {{ row: number, column: number }} key
 * @param {string} name "" for a position without a key
 * @returns {TextEdit[]}
 */
export function setKeyName(draft, { row, column }, name) {
  const word = toWord(name) || EMPTY_ENTRY;
  const line = faceLines(draft).find((faceLine) => faceLine.kind === "row" && firstNumber(faceLine) === row);
  const count = line ? line.words.length : 0;
  if (line && column < count) return setWord(line.words[column], word);
  const missingNames = Array.from({ length: column - count }, (_, index) => `${row}.${count + index}`);
  const joinedNames = [...missingNames, word].join(" ");
  return line ? [{ from: line.end, to: line.end, insert: ` ${joinedNames}` }] : addFaceLine(draft, "row", `# row ${row}: ${joinedNames}`);
}

/**
 * Returns the edits that set the text after the colon in a line such as `# port rom0: keys` or `# title: Lock`. The edits add, change or
 * remove the line.
 * @param {BoardDraft} draft
 * @param {"title" | "test" | "port" | "buzzer"} kind
 * @param {string} head the port or port line before the colon, "" for none
 * @param {string} words the new text; "" removes the line
 * @returns {TextEdit[]}
 */
export function setLineText(draft, kind, head, words) {
  const text = words.trim().replace(/[ \t]+/g, " ");
  const line = faceLines(draft).find((faceLine) => (
    faceLine.kind === kind && (faceLine.first ? faceLine.first.text.toLowerCase() : "") === head));
  if (!line) return text === "" ? [] : addFaceLine(draft, kind, `# ${kind}${head && ` ${head}`}: ${text}`);
  if (text === "") return [removeFaceLine(draft, line)];
  const [first] = line.words;
  return [{ from: first ? first.from : line.end, to: line.end, insert: first ? text : ` ${text}` }];
}

/**
 * Returns the edits that move the buzzer to another signal line; no edits if the text defines no buzzer.
 * @param {BoardDraft} draft
 * @param {string} line
 */
export function moveBuzzer(draft, line) {
  const buzzerLine = faceLines(draft).find(({ kind }) => kind === "buzzer");
  return buzzerLine && buzzerLine.first ? setWord(buzzerLine.first, line) : [];
}

/**
 * Returns the edits that add the front-panel line of a group of lamps, such as a display or a bar.
 * @param {BoardDraft} draft
 * @param {string} kind the first word of the line, such as `display`
 * @param {number} first the number of the first lamp
 * @param {string} text the text after the colon
 */
export function addGroup(draft, kind, first, text) {
  return addFaceLine(draft, kind, `# ${kind} ${first}: ${text}`);
}

/**
 * Returns the edits that remove deleted lamps from the front panel and renumber the other lamps.
 * @param {BoardDraft} draft
 * @param {Set<number>} deletedLamps
 * @returns {TextEdit[]}
 */
export function renumberLamps(draft, deletedLamps) {
  /** @type {(lamp: number) => number} */
  const toNewNumber = (lamp) => lamp - [...deletedLamps].filter((deletedLamp) => deletedLamp < lamp).length;
  return faceLines(draft).flatMap((line) => {
    if (line.kind === "grid") return renumberGrid(draft, line, deletedLamps, toNewNumber);
    if (!LAMP_KINDS.has(line.kind) || !line.first || Number.isNaN(firstNumber(line))) return [];
    if (line.last) return renumberRange(draft, line, deletedLamps, toNewNumber);
    return renumberList(draft, line, deletedLamps, toNewNumber);
  });
}

/**
 * Returns the edits that renumber the lamps in a line with a list of names, a list of colours or a group. The edits remove the line if no
 * lamps remain.
 * @param {BoardDraft} draft
 * @param {FaceLine} line
 * @param {Set<number>} deletedLamps
 * @param {(lamp: number) => number} toNewNumber returns the new number of a lamp
 * @returns {TextEdit[]}
 */
function renumberList(draft, line, deletedLamps, toNewNumber) {
  const first = firstNumber(line);
  const isGroup = line.kind !== "lamp" && line.kind !== "colour";
  const remainingLamps = isGroup ? [...(deletedLamps.has(first) ? [] : [first])]
    : line.words.map((_, index) => first + index).filter((lamp) => !deletedLamps.has(lamp));
  if (remainingLamps.length === 0) return [removeFaceLine(draft, line)];
  const head = setWord(/** @type {import("./face_lines.js").FaceWord} */ (line.first), String(toNewNumber(remainingLamps[0])));
  if (!isGroup) return [...head, ...removeWords(line, (index) => deletedLamps.has(first + index))];
  // In `scanned by N`, N is also a lamp number.
  const scanLampWord = line.words[line.words.findIndex(({ text }) => text === "scanned") + 2];
  const isMultiplexed = line.words.some(({ text }) => text === "scanned");
  return isMultiplexed && scanLampWord ? [...head, ...setWord(scanLampWord, String(toNewNumber(Number(scanLampWord.text))))] : head;
}

/**
 * Returns the edits that renumber the lamps in a line that gives a colour to a range of lamps. The edits remove the line if no lamps
 * remain.
 * @param {BoardDraft} draft
 * @param {FaceLine} line
 * @param {Set<number>} deletedLamps
 * @param {(lamp: number) => number} toNewNumber returns the new number of a lamp
 * @returns {TextEdit[]}
 */
function renumberRange(draft, line, deletedLamps, toNewNumber) {
  const { first, last } = line;
  if (!first || !last) return [];
  const lamps = Array.from({ length: Math.max(0, Number(last.text) - firstNumber(line) + 1) }, (_, index) => firstNumber(line) + index);
  const remainingLamps = lamps.filter((lamp) => !deletedLamps.has(lamp));
  if (remainingLamps.length === 0) return [removeFaceLine(draft, line)];
  const lastRemaining = remainingLamps[remainingLamps.length - 1];
  return [...setWord(first, String(toNewNumber(remainingLamps[0]))), ...setWord(last, String(toNewNumber(lastRemaining)))];
}

/**
 * Returns the edits that renumber the lamps in a grid row. The edits remove the row if no lamps remain.
 * @param {BoardDraft} draft
 * @param {FaceLine} line
 * @param {Set<number>} deletedLamps
 * @param {(lamp: number) => number} toNewNumber returns the new number of a lamp
 * @returns {TextEdit[]}
 */
function renumberGrid(draft, line, deletedLamps, toNewNumber) {
  const names = new Map(faceLines(draft).filter(({ kind, first, last }) => kind === "lamp" && first && !last)
    .flatMap((list) => list.words.map(({ text }, index) => /** @type {[string, number]} */ ([text, firstNumber(list) + index]))));
  const texts = line.words.map(({ text }) => {
    const namedLamp = names.get(text);
    if (namedLamp !== undefined) return deletedLamps.has(namedLamp) ? EMPTY_ENTRY : text;
    if (!/^\d+$/.test(text)) return text;
    return deletedLamps.has(Number(text)) ? EMPTY_ENTRY : String(toNewNumber(Number(text)));
  });
  if (texts.every((text) => text === EMPTY_ENTRY)) return [removeFaceLine(draft, line)];
  return line.words.flatMap((word, index) => setWord(word, texts[index]));
}

/**
 * Returns the edits that rename ports and chains in the front panel after a deletion, and remove the lines of deleted ports and chains.
 * @param {BoardDraft} draft
 * @param {(port: string) => string} toNewPortName returns the new name of a port or chain, "" if it was deleted
 * @returns {TextEdit[]}
 */
export function renamePorts(draft, toNewPortName) {
  return faceLines(draft).flatMap((line) => {
    if (!line.first || !PORT_KINDS.includes(line.kind)) return [];
    // A printer line contains two ports: the port of the strobe line, and the port for the character code.
    const words = [line.first, ...(line.kind === "printer" ? line.words.slice(0, 1) : [])];
    const newNames = words.map(({ text }, index) => renamePort(text, line.kind !== "port" && index === 0, toNewPortName));
    if (newNames.includes("")) return [removeFaceLine(draft, line)];
    return words.flatMap((word, index) => setWord(word, newNames[index]));
  });
}

/**
 * Returns the new name of a port or port line; "" if the port was deleted.
 * @param {string} text the old name
 * @param {boolean} isLine true for a port line
 * @param {(port: string) => string} toNewPortName returns the new name of a port or chain, "" if it was deleted
 */
function renamePort(text, isLine, toNewPortName) {
  const end = isLine ? text.lastIndexOf(".") : text.length;
  const port = toNewPortName(text.slice(0, end).toLowerCase());
  return port && port + text.slice(end);
}

/**
 * Returns the edits that remove the lines with the key names of deleted rows.
 * @param {BoardDraft} draft
 * @param {number} rowCount the number of remaining rows
 */
export function removeRows(draft, rowCount) {
  return faceLines(draft).filter((line) => line.kind === "row" && firstNumber(line) >= rowCount).map((line) => removeFaceLine(draft, line));
}

/**
 * Returns the edits that remove the key names of deleted columns.
 * @param {BoardDraft} draft
 * @param {Set<number>} deletedColumns
 */
export function removeColumns(draft, deletedColumns) {
  return faceLines(draft).filter(({ kind }) => kind === "row").flatMap((line) => {
    const isEmpty = line.words.length > 0 && line.words.every((_, column) => deletedColumns.has(column));
    return isEmpty ? [removeFaceLine(draft, line)] : removeWords(line, (column) => deletedColumns.has(column));
  });
}
