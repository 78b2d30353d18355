// Completes words in a board text: table headers, complete tables from templates, keys, and values such as the names of signal lines.

import { MAX_PARTS, signalLines } from "../bench/board_form.js";
import { indices } from "../bench/numbers.js";
import { collectParts, readBoardText } from "./board_reader.js";
import { filterCompletions, toCompletions } from "./completion.js";
import { tableAt } from "./text_help.js";
import { findCommentStart } from "./sendable_text.js";
import * as say from "../../words/text.js";

/**
 * @typedef {import("./completion.js").Completion} Completion
 * @typedef {import("./completion.js").CompletionItem} CompletionItem
 * @typedef {import("../bench/board_form.js").BoardLine} BoardLine
 */

/**
 * Matches an unfinished value at the end of the text before the caret. The groups are its key, its opening quote ("" if there is none),
 * and the characters typed so far. The value can be in an open array.
 */
const UNFINISHED_VALUE = /(\w+)\s*=\s*(?:\[(?:[^\][\]"]|"[^"\n]*")*)?("?)([\w.]*)$/;

/**
 * Returns the description of a signal line in the list of completions.
 * @param {BoardLine} line
 */
function describeLine({ name, kind, isInput }) {
  const [first, second, third] = name.match(/\d+/g) || [];
  if (kind === "rom") return say.lineOfRom(isInput, second, first);
  return kind === "ram" ? say.lineOfRam(third, second, first) : say.bitOfChain(second, first);
}

/** The maximum number of characters before the caret that the search for the key of a value examines. */
const MAX_CHARACTERS_BEFORE_CARET = 2000;

/** The chains and signal lines that a board text defines, and the ROM and RAM bank numbers that the text does not use. */
class BoardParts {
  /** @param {string} text */
  constructor(text) {
    const { roms, banks, chains } = collectParts(readBoardText(text).entries);
    this.unusedRoms = indices(MAX_PARTS.rom).filter((number) => !roms.some(({ chip }) => chip === number));
    this.unusedBanks = indices(MAX_PARTS.ram).filter((number) => !banks.some(({ bank }) => bank === number));
    this.chains = indices(chains.length);
    const lines = signalLines({ roms, banks, chains });
    this.inputs = lines.filter(({ isInput }) => isInput);
    this.bits = lines.filter(({ kind }) => kind === "bit");
    this.outputs = lines.filter(({ kind, isInput }) => kind !== "bit" && !isInput);
  }

  /**
   * Returns the possible values of a key; an empty list if the values are unknown. Names of signal lines and port masks need quotes.
   * @param {string} table
   * @param {string} key
   * @returns {{ list: CompletionItem[], isQuoted: boolean }}
   */
  listValues(table, key) {
    const listLines = (/** @type {BoardLine[]} */ boardLineList) => (
      { list: boardLineList.map((line) => ({ text: line.name, description: describeLine(line) })), isQuoted: true });
    const listNumbers = (/** @type {number[]} */ list) => ({ list: toCompletions(list.map(String)), isQuoted: false });
    switch (`${table}.${key}`) {
      case "rom.chip": return listNumbers(this.unusedRoms);
      case "ram.bank": return listNumbers(this.unusedBanks);
      case "rom.port": {
        const list = [{ text: "iiii", description: say.INPUT_LINES }, { text: "0000", description: say.OUTPUT_LINES }];
        return { list, isQuoted: true };
      }
      case "chain.clock": case "chain.data": return listLines(this.outputs);
      case "lamp.line": return listLines([...this.outputs, ...this.bits]);
      case "keys.columns": return listLines(this.inputs);
      case "keys.chain": return listNumbers(this.chains);
      default: return listNumbers([]);
    }
  }

  /**
   * Returns a template for each kind of table; omits the template for ROM or RAM if all its numbers are in use. A template has all keys of
   * the table. Its signal lines are lines of the board, or "" if the board has no suitable line.
   * @returns {CompletionItem[]}
   */
  listTemplates() {
    const [input] = this.inputs;
    const [clock = "", data = ""] = this.outputs.map(({ name }) => name);
    return [
      { text: `[[rom]]\nchip = ${this.unusedRoms[0]}\nport = "0000"`, description: say.ROM_WITH_PORT },
      { text: `[[ram]]\nbank = ${this.unusedBanks[0]}\nchips = 1`, description: say.BANK_OF_RAM },
      { text: `[[chain]]\nclock = "${clock}"\ndata = "${data}"\nchips = 1`, description: say.CHAIN_OF_REGISTERS },
      { text: `[keys]\nchain = 0\nfirst = 0\nrows = 4\ncolumns = ["${input ? input.name : ""}"]`, description: say.KEY_MATRIX },
      { text: `[[lamp]]\nline = "${clock}"`, description: say.A_LAMP },
    ].filter(({ text }) => !text.includes("undefined"));
  }
}

/**
 * Returns the completions of a value.
 * @param {string} text the line that contains the caret
 * @param {number} column
 * @param {RegExpExecArray} valueMatch the match of UNFINISHED_VALUE
 * @param {{ list: CompletionItem[], isQuoted: boolean }} values
 * @returns {Completion}
 */
function completeValue(text, column, valueMatch, { list, isQuoted }) {
  const isQuoteOpen = valueMatch[2] !== "";
  if (isQuoteOpen && !isQuoted) return { from: column, to: column, list: [] };
  const closingQuote = isQuoted && text[column] !== "\"" ? "\"" : "";
  const openingQuote = isQuoted && !isQuoteOpen ? "\"" : "";
  const { from, to, list: matchingItems } = filterCompletions(text, column, list, /[\w.]*$/);
  return { from, to, list: matchingItems.map((item) => ({ ...item, text: `${openingQuote}${item.text}${closingQuote}` })) };
}

/**
 * Returns the completions at a position in a board text.
 * @param {string[]} lines
 * @param {number} line the line number from 0
 * @param {number} column
 * @param {Map<string, Map<string, string>>} tables the keys and the descriptions of their values, by table
 * @returns {Completion}
 */
export function completeBoard(lines, line, column, tables) {
  const text = lines[line];
  const textBefore = text.slice(0, column);
  if (findCommentStart(textBefore, "#") < textBefore.length) return { from: column, to: column, list: [] };
  if (/^\s*\[+\w*$/.test(textBefore)) return filterCompletions(text, column, toCompletions([...tables.keys()]));
  const table = tableAt(lines, line);
  const parts = new BoardParts(lines.map((lineText, number) => (number === line ? "" : lineText)).join("\n"));
  // Finds an array around the caret only if the array starts at most nine lines above.
  const linesBefore = lines.slice(Math.max(0, line - 9), line).map((lineText) => lineText.slice(0, findCommentStart(lineText, "#")));
  const valueMatch = UNFINISHED_VALUE.exec([...linesBefore, textBefore].join("\n").slice(-MAX_CHARACTERS_BEFORE_CARET));
  const isInValue = valueMatch && (textBefore.includes(valueMatch[1]) || valueMatch[0].includes("["));
  if (valueMatch && isInValue) return completeValue(text, column, valueMatch, parts.listValues(table, valueMatch[1]));
  const keys = tables.get(table) || new Map();
  const words = [...keys].map(([name, values]) => ({ text: name, description: values }));
  return text.trim() === "" ? { from: 0, to: column, list: [...words, ...parts.listTemplates()] } : filterCompletions(text, column, words);
}
