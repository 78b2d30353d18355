// Error messages for programs in the syntax of other assemblers.

// --- import/expressions.js ---
/** @type {(text: string) => string} */
export const notUnderstoodMessage = (text) => `\`${text}\` is not understood`;
export const DIVISION_BY_0 = "division by 0";
/** @type {(maximum: number) => string} */
export const tooDeepMessage = (maximum) => `more than ${maximum} nested brackets or signs`;
/** @type {(text: string) => string} */
export const notANumberMessage = (text) => `\`${text}\` is not a number`;
/** @type {(text: string) => string} */
export const notAsciiMessage = (text) => `${text} has a character that is not ASCII`;
export const OPERAND_MISSING = "an operand is missing";
export const BRACKET_MISSING = "a bracket is missing";
/** @type {(name: string) => string} */
export const noNameMessage = (name) => `no line defines the name ${name}`;

// --- import/program_import.js ---
/** @type {(maximum: number) => string} */
export const lineTooLongMessage = (maximum) => `the line has more than ${maximum} bytes before its comment`;
/** @type {(name: string, line: number) => string} */
export const alsoDefinedOnLine = (name, line) => `the name ${name} is also defined on line ${line}`;
/** @type {(text: string) => string} */
export const dependsOnItself = (text) => `the value of \`${text}\` depends on itself`;
/** @type {(text: string, value: number, from: number, to: number) => string} */
export const outOfRange = (text, value, from, to) => `\`${text}\` is ${value}; it must be ${from} to ${to}`;
/** @type {(text: string, number: number) => string} */
export const notEvenRegister = (text, number) => (
  `\`${text}\` is not an even register, 0 to 14, at which a pair begins; if it is the number of a pair, write ${number}P`);
/** @type {(text: string) => string} */
export const noPairMessage = (text) => `\`${text}\` is not a pair; pairs are 0P to 7P, or 0<, 2< to 14< by their first register`;
export const NC_IS_AMBIGUOUS = "NC means no condition (0) in Intel's syntax, but no carry (10) in that of AS: write 0 or 10";
/** @type {(word: string) => string} */
export const instructionOf4040 = (word) => `${word} is an instruction of the 4040`;
export const NO_PROGRAM_RAM = "WPM writes program RAM, which a board here does not have";
/** @type {(word: string) => string} */
export const notSupportedMessage = (word) => `${word} is not supported; write the lines that it stands for`;
export const PAST_LAST_ADDRESS = "past the last address, FFF";
/** @type {(word: string) => string} */
export const noInstructionMessage = (word) => `\`${word}\` is neither an instruction nor a directive that is supported`;
/** @type {(word: string, count: number) => string} */
export const wrongOperandCountMessage = (word, count) => (
  count === 0 ? `${word} takes no operand` : `${word} takes ${count === 1 ? "one operand" : "two operands"}`);
export const NO_VALUES = "DB has no values";
