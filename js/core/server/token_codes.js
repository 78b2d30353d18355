// Encodes semantic tokens of the language server protocol: the words that an editor colours, with their kinds.

/**
 * A word to colour: its line and columns (from 0), its token type, and whether it is a definition or a constant.
 * @typedef {{ line: number, from: number, to: number, type: string, isDeclaration?: boolean, isReadonly?: boolean }} ColouredWord
 */

/** The token types that the server uses, in the order of their numbers in the encoding. */
export const TOKEN_TYPES = ["comment", "function", "variable", "enumMember", "keyword", "macro", "number", "string", "property", "class"];
/** The token modifiers that the server uses, in the order of their bits in the encoding. */
export const TOKEN_MODIFIERS = ["declaration", "readonly"];

/** @type {Record<string, string>} the protocol's token types, by the style that the page's editor gives to a word */
const TYPES_BY_STYLE = {
  "keyword": "keyword", "number": "number", "comment": "comment", "string": "string", "def": "function", "variable-2": "variable",
};

/**
 * Returns the words to colour in some lines.
 * @param {string[]} lines
 * @param {(line: string) => { from: number, to: number, style: string }[]} colours returns the styled words of a line
 * @returns {ColouredWord[]}
 */
export function listColouredWords(lines, colours) {
  return lines.flatMap((text, line) => colours(text).filter(({ style }) => TYPES_BY_STYLE[style]).map(({ from, to, style }) => (
    { line, from, to, type: TYPES_BY_STYLE[style] })));
}

/**
 * Encodes each word as five numbers, and returns all numbers in one list:
 * - the number of lines from the previous word to this word;
 * - the number of columns from the start of the previous word in the same line, or else from the start of the line;
 * - the length, the type and the modifiers.
 * @param {ColouredWord[]} words
 * @returns {number[]}
 */
export function encodeTokens(words) {
  const sortedWords = [...words].sort((one, other) => one.line - other.line || one.from - other.from);
  let [previousLine, previousFrom] = [0, 0];
  return sortedWords.filter((word) => word.to > word.from).flatMap((word) => {
    const columnDistance = word.line === previousLine ? word.from - previousFrom : word.from;
    const modifiers = (word.isDeclaration ? 1 : 0) + (word.isReadonly ? 2 : 0);
    const encodedWord = [word.line - previousLine, columnDistance, word.to - word.from, TOKEN_TYPES.indexOf(word.type), modifiers];
    [previousLine, previousFrom] = [word.line, word.from];
    return encodedWord;
  });
}

/**
 * Returns the edits that change the old encoding to the new encoding: no edit if the encodings are equal, or else one edit that replaces a
 * range of numbers.
 * @param {number[]} oldTokens
 * @param {number[]} newTokens
 * @returns {{ start: number, deleteCount: number, data: number[] }[]}
 */
export function computeTokenEdits(oldTokens, newTokens) {
  const minLength = Math.min(oldTokens.length, newTokens.length);
  let [start, suffix] = [0, 0];
  while (start < minLength && oldTokens[start] === newTokens[start]) start += 1;
  while (suffix < minLength - start && oldTokens[oldTokens.length - 1 - suffix] === newTokens[newTokens.length - 1 - suffix]) suffix += 1;
  if (start === oldTokens.length && start === newTokens.length) return [];
  return [{ start, deleteCount: oldTokens.length - start - suffix, data: newTokens.slice(start, newTokens.length - suffix) }];
}
