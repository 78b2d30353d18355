// Reads the manual tables that the page shows. page/build extracts these tables from docs/MANUAL.md and page/help.md.

import * as say from "../../words/help.js";

/**
 * A table: its caption ("" for none), its column headings and its rows. Code in a cell is between backticks.
 * @typedef {{ caption: string, head: string[], rows: string[][] }} ManualTable
 * @typedef {{ title: string, tables: ManualTable[] }} ManualSection
 *
 * A piece of the text in a table cell.
 * @typedef {{ text: string, isCode: boolean }} Piece
 *
 * The manual's description of an instruction. `form` is the mnemonic with operands. `code` is the opcode. `byteCount` is the number of
 * bytes. `effect` describes the effect.
 * @typedef {{ form: string, code: string, byteCount: string, cycles: string, effect: string }} Instruction
 */

/** The titles of the manual's sections about instructions, and about the cells of the machine (registers, RAM, ports ..). */
export const INSTRUCTIONS = say.INSTRUCTIONS;
export const CELLS = say.CELLS;
/** The titles of the manual's sections whose table rows each describe a bench line. */
const BENCH_LINE_SECTIONS = say.SECTIONS_OF_LINES;

/**
 * Splits a table cell into pieces of text and of code.
 * @param {string} cell
 * @returns {Piece[]}
 */
export function splitCell(cell) {
  return cell.split("`").map((text, index) => ({ text, isCode: index % 2 === 1 })).filter(({ text }) => text !== "");
}

/**
 * Returns the text of a table cell without backticks.
 * @param {string} cell
 */
export function cellText(cell) {
  return cell.replace(/`/g, "");
}

/**
 * Returns the rows of all tables in a section; an empty list if there is no such section.
 * @param {ManualSection[]} manual
 * @param {string} title
 */
export function sectionRows(manual, title) {
  const section = manual.find((candidate) => candidate.title === title);
  return section ? section.tables.flatMap(({ rows }) => rows) : [];
}

/**
 * Searches the manual for words, ignoring case. Returns the sections whose titles contain all words. Of any other section, returns the rows
 * that contain all words.
 * @param {ManualSection[]} manual
 * @param {string} query the words to search for
 * @returns {ManualSection[]}
 */
export function searchManual(manual, query) {
  const words = query.toLowerCase().split(/\s+/).filter((word) => word !== "");
  /** @type {(text: string) => boolean} */
  const hasAllWords = (text) => words.every((word) => text.toLowerCase().includes(word));
  return manual.map((section) => {
    if (hasAllWords(section.title)) return section;
    const tables = section.tables.map((table) => ({ ...table, rows: table.rows.filter((row) => hasAllWords(cellText(row.join(" ")))) }));
    return { ...section, tables: tables.filter(({ rows }) => rows.length > 0) };
  }).filter(({ tables }) => tables.length > 0);
}

/**
 * Returns the descriptions of instructions, by upper-case mnemonic.
 * @param {ManualSection[]} manual
 * @returns {Map<string, Instruction>}
 */
export function readInstructions(manual) {
  const instructions = new Map();
  for (const row of sectionRows(manual, INSTRUCTIONS)) {
    // A table without columns for words and cycles describes instructions with one word and one cycle.
    const [forms, code, byteCount, cycles, effect] = row.length === 3 ? [row[0], row[1], "1", "1", row[2]] : row;
    for (const [, form] of forms.matchAll(/`([^`]+)`/g)) {
      instructions.set(form.split(" ")[0], { form, code, byteCount, cycles, effect: cellText(effect) });
    }
  }
  return instructions;
}

/**
 * Returns the meanings of JCN conditions, by condition number.
 * @param {ManualSection[]} manual
 * @returns {Map<number, string>}
 */
export function readJcnConditions(manual) {
  const rows = sectionRows(manual, say.CONDITIONS_OF_JCN);
  return new Map(rows.flatMap(([low, ifLow, high, ifHigh]) => [[Number(low), cellText(ifLow)], [Number(high), cellText(ifHigh)]]));
}

/**
 * Returns the forms of bench lines, with descriptions of their effects.
 * @param {ManualSection[]} manual
 * @returns {{ form: string, effect: string }[]}
 */
export function readLineForms(manual) {
  return BENCH_LINE_SECTIONS.flatMap((title) => sectionRows(manual, title)).flatMap(([forms, effect]) => (
    [...forms.matchAll(/`([^`]+)`/g)].map(([, form]) => ({ form, effect: cellText(effect) }))));
}

/**
 * Returns the bench lines that match the typed text. If a blank follows the first word, returns the lines with this first word. Otherwise,
 * returns the lines that start with the typed text. Returns no lines if the typed text is blank.
 * @param {{ form: string, effect: string }[]} lines
 * @param {string} typedText
 */
export function findMatchingLines(lines, typedText) {
  const word = typedText.trimStart().split(/\s/)[0];
  if (word === "") return [];
  const isWordComplete = /\s/.test(typedText.trimStart());
  return lines.filter(({ form }) => (isWordComplete ? form.split(" ")[0] === word : form.startsWith(word)));
}

/**
 * Returns the description of a cell of the machine; "" for none. If a name with a number, such as `R5` or `bank 0`, has no description,
 * returns the description of the name without the number.
 * @param {Map<string, string>} descriptions the descriptions, by cell name
 * @param {string} name
 */
export function describeCell(descriptions, name) {
  return descriptions.get(name) || descriptions.get(name.replace(/ ?\d+$/, "")) || "";
}

/**
 * Returns the manual's descriptions of the cells of the machine (registers, RAM, ports ..), by cell name.
 * @param {ManualSection[]} manual
 * @returns {Map<string, string>}
 */
export function readCellDescriptions(manual) {
  const descriptions = new Map();
  for (const [names, description] of sectionRows(manual, CELLS)) {
    for (const [, name] of names.matchAll(/`([^`]+)`/g)) descriptions.set(name, cellText(description));
  }
  return descriptions;
}
