// Splits source lines in the syntax of Intel's assembler or of the AS macro assembler into labels, mnemonics, operands and comments.
// text/assembly.js does this for lines in the bench's syntax.

/**
 * A source line. `word` is the mnemonic or directive in upper case; it is EQU for every definition of a name. `operand` is the text of all
 * operands. `isLong` is true if the line without its comment is longer than MAX_CODE_LENGTH.
 * @typedef {{ text: string, label: string, word: string, operand: string, comment: string, isLong: boolean }} SourceLine
 *
 * The kind of an operand. A `digit` is a number from 0 to 15, a `byte` is a number from 0 to 255, and a `target` is an address to which the
 * instruction jumps.
 * @typedef {"register" | "pair" | "digit" | "byte" | "target" | "condition"} OperandKind
 */

/** The maximum length of a line without its comment, in characters. */
export const MAX_CODE_LENGTH = 1024;

/** @type {[string[], OperandKind[]][]} groups of mnemonics, each with the kinds of their operands */
const INSTRUCTION_FORMS = [
  [["NOP", "CLB", "CLC", "IAC", "CMC", "CMA", "RAL", "RAR", "TCC", "DAC", "TCS", "STC", "DAA", "KBP", "DCL", "WRM", "WMP", "WRR",
    "WR0", "WR1", "WR2", "WR3", "SBM", "RDM", "RDR", "ADM", "RD0", "RD1", "RD2", "RD3"], []],
  [["INC", "ADD", "SUB", "LD", "XCH"], ["register"]],
  [["SRC", "FIN", "JIN"], ["pair"]],
  [["LDM", "BBL"], ["digit"]],
  [["FIM"], ["pair", "byte"]],
  [["JUN", "JMS"], ["target"]],
  [["ISZ"], ["register", "target"]],
  [["JCN"], ["condition", "target"]],
];
/** The kinds of the operands, by mnemonic. */
export const OPERAND_KINDS = new Map(INSTRUCTION_FORMS.flatMap(([names, kinds]) => (
  names.map((name) => /** @type {const} */ ([name, kinds])))));
/** The instructions that exist only on the 4040. */
export const INSTRUCTIONS_OF_4040 = new Set(["HLT", "BBS", "LCR", "OR4", "OR5", "AN6", "AN7", "DB0", "DB1", "SB0", "SB1", "EIN", "DIN",
  "RPM"]);
/** The directives that the import keeps only as comments. */
export const COMMENTED_DIRECTIVES = new Set(["CPU", "TITLE", "PAGE", "LISTING", "NEWPAGE", "PRTINIT", "PRTEXIT", "SUBTITLE", "EJECT",
  "NOLIST", "LIST", "NAME", "SPACE", "RELAXED", "RADIX", "INTSYNTAX"]);
/** The directives that define bytes. */
export const BYTE_DIRECTIVES = new Set(["DB", "DATA", "BYTE", "DEFB", "FCB", "DC"]);
/** The directives that reserve bytes. */
export const RESERVE_DIRECTIVES = new Set(["DS", "RES", "DEFS", "RMB"]);
const DIRECTIVES = new Set([...BYTE_DIRECTIVES, ...RESERVE_DIRECTIVES, "EQU", "=", "SET", "ORG", "ALIGN", "END"]);
/** The directives that cannot be imported. */
export const UNSUPPORTED_DIRECTIVES = new Set(["MACRO", "ENDM", "IF", "ELSE", "ENDIF", "IFDEF", "IFNDEF", "INCLUDE", "BINCLUDE", "REPT",
  "IRP", "WHILE", "STRUCT", "SECTION", "DW"]);
/** The mnemonic of the instruction that writes to program RAM. The bench has no program RAM. */
export const PROGRAM_RAM_MNEMONIC = "WPM";
/** The mnemonics and directives. At the start of a line, such a word is a label only if a colon or a comma follows. */
const NON_LABEL_WORDS = [OPERAND_KINDS, INSTRUCTIONS_OF_4040, COMMENTED_DIRECTIVES, DIRECTIVES, UNSUPPORTED_DIRECTIVES,
  new Set([PROGRAM_RAM_MNEMONIC])];

const NAME = "[A-Za-z_.?@][A-Za-z0-9_.?@$]*";
const MARKED_LABEL = new RegExp(`^[ \\t]*(${NAME})[ \\t]*[:,]`);
const FIRST_NAME = new RegExp(`^${NAME}`);
const DEFINITION = /^(=|EQU|SET|:=)(?=[ \t]|$|[^A-Za-z0-9_=])/i;
const NAMED_DEFINITION = new RegExp(`^(${NAME})[ \\t]*(?:=|[ \\t]EQU[ \\t]|[ \\t]SET[ \\t])`, "i");

/**
 * Converts the ASCII letters in a string to upper case.
 * @param {string} text
 */
export function toAsciiUpperCase(text) {
  return text.replace(/[a-z]+/g, (letters) => letters.toUpperCase());
}

/**
 * Removes the blanks and tabs at both ends of a string.
 * @param {string} text
 */
export function trimBlanks(text) {
  return text.replace(/^[ \t]+/, "").replace(/[ \t]+$/, "");
}

/**
 * Returns the column at which a comment starts, -1 for none. `/` starts a comment only at the start of the line or after a blank.
 * @param {string} line
 */
function findCommentStart(line) {
  let quote = "";
  for (let index = 0; index < line.length; index++) {
    const character = line[index];
    if (quote !== "") {
      if (character === quote) quote = "";
    } else if (character === '"' || character === "'") quote = character;
    else if (character === ";" || (character === "/" && (index === 0 || /[ \t]/.test(line[index - 1])))) return index;
  }
  return -1;
}

/**
 * Splits a line into its code and its comment. A line that starts with `*` or `/` is a comment.
 * @param {string} text
 */
function splitComment(text) {
  if (/^[*/]/.test(text)) return { code: "", comment: text.slice(1) };
  const lineStart = text.slice(0, MAX_CODE_LENGTH + 1);
  const commentStart = findCommentStart(lineStart);
  const code = commentStart < 0 ? lineStart : lineStart.slice(0, commentStart);
  const isComplete = commentStart >= 0 || lineStart.length <= MAX_CODE_LENGTH;
  return { code: isComplete ? code.replace(/[ \t]+$/, "") : code, comment: commentStart < 0 ? "" : text.slice(commentStart + 1) };
}

/**
 * Splits a line into its label and the code after the label. A name before a colon or a comma is a label. A name in the first column is
 * also a label, unless the name is a mnemonic or a directive.
 * @param {string} line
 */
function splitLabel(line) {
  const markedLabel = MARKED_LABEL.exec(line);
  if (markedLabel) return { label: markedLabel[1], code: trimBlanks(line.slice(markedLabel[0].length)) };
  const [first = ""] = FIRST_NAME.exec(line) || [];
  const code = trimBlanks(line.slice(first.length));
  const isLabel = first !== "" && !NON_LABEL_WORDS.some((names) => names.has(toAsciiUpperCase(first))) && !code.startsWith("=");
  return isLabel ? { label: first, code } : { label: "", code: trimBlanks(line) };
}

/**
 * Splits the statement after a label into its first word and its operands. A definition of a name has a form such as `X = 5` or `X EQU 5`,
 * with or without a colon after X.
 * @param {string} label
 * @param {string} code
 */
function splitStatement(label, code) {
  if (code === "") return { label, word: "", operand: "" };
  if (label !== "" && DEFINITION.test(code)) {
    return { label, word: "EQU", operand: code.replace(/^(=|:=|[A-Za-z]+)[ \t]*/, "") };
  }
  const namedDefinition = label === "" ? NAMED_DEFINITION.exec(code) : null;
  if (namedDefinition) return { label: namedDefinition[1], word: "EQU", operand: trimBlanks(code.slice(namedDefinition[0].length)) };
  const [word] = /^[^ \t]+/.exec(code) || [""];
  return { label, word: toAsciiUpperCase(word), operand: trimBlanks(code.slice(word.length)) };
}

/**
 * Splits all lines of a program. Lines after END are treated as comments.
 * @param {string[]} texts
 * @returns {SourceLine[]}
 */
export function readSource(texts) {
  let isEnded = false;
  return texts.map((text) => {
    const lineWithoutStatement = { text, label: "", word: "", operand: "", isLong: false };
    if (isEnded) return { ...lineWithoutStatement, comment: text };
    const { code, comment } = splitComment(text);
    if (code.length > MAX_CODE_LENGTH) return { ...lineWithoutStatement, comment, isLong: true };
    const { label, code: afterLabel } = splitLabel(code);
    const statement = splitStatement(label, afterLabel);
    isEnded = statement.word === "END";
    return { text, comment, isLong: false, ...statement };
  });
}

/**
 * Splits a list of operands at the commas that are not inside parentheses or quotes.
 * @param {string} list
 */
export function splitList(list) {
  if (list === "") return [];
  const parts = [""];
  let [depth, quote] = [0, ""];
  for (const character of list) {
    if (quote !== "") {
      if (character === quote) quote = "";
    } else if (character === '"' || character === "'") quote = character;
    else if (character === "(") depth += 1;
    else if (character === ")") depth -= 1;
    else if (character === "," && depth === 0) {
      parts.push("");
      continue;
    }
    parts[parts.length - 1] += character;
  }
  return parts.map(trimBlanks);
}

/**
 * Returns the text in a quoted string with two or more characters; null for any other operand.
 * @param {string} part
 */
export function extractQuotedCharacters(part) {
  return part.length > 3 && /^("[^"]*"|'[^']*')$/.test(part) ? part.slice(1, -1) : null;
}
