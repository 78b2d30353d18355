// The help on session lines, with the effect of each line, and the messages about rejected lines.

import { didYouMean } from "./text.js";

/**
 * The session lines in groups, each with its form and its effect. Each description makes sense on its own.
 * @type {{ title: string, lines: [string, string][] }[]}
 */
export const LINES_BY_GROUPS = [
  { title: "Texts, up to a line with only a dot:",
    lines: [
      ["wire, then a text", "replaces the board with the one in the text"],
      ["asm, then a text", "assembles the text and puts its bytes into ROM"],
      ["map, then a text", "shows the addresses of a program's lines and names"],
      ["wiring, then a text", "shows the first error of a board and its part"],
      ["errors, then a text", "shows the first error of each line of a program"],
    ] },
  { title: "Commands:",
    lines: [
      ["press r c", "holds down the key in row r, column c"],
      ["release r c", "lets the key in row r, column c go up"],
      ["run n", "runs for n cycles, or to a breakpoint or watch"],
      ["step", "runs one instruction"],
      ["poke place v", "puts the value v into a register, RAM, ROM, .."],
      ["test b", "sets the TEST pin to b, 0 or 1"],
      ["reset", "cycles the power; ROM, keys, TEST and stops stay"],
      ["break a", "stops runs before the instruction at address a"],
      ["unbreak a", "removes the breakpoint at the address a"],
      ["watch b s", "stops runs when RAM character s of bank b changes"],
      ["unwatch b s", "removes the watch of that character"],
    ] },
  { title: "Questions, which change nothing:",
    lines: [
      ["lamps", "shows each lamp: * is on, . is off"],
      ["regs", "shows accumulator, carry, counter and registers"],
      ["ram b", "shows characters and ports of RAM bank b"],
      ["list a n", "shows n instructions in ROM from the address a"],
      ["board", "shows the text of the board"],
      ["breaks", "shows the breakpoints"],
      ["watches", "shows the RAM characters that are watched"],
      ["seq", "shows how many commands were accepted"],
      ["state", "shows all but ROM and RAM, on one line"],
      ["count n", "shows how often n cycles would run each address"],
      ["trace n place ..", "shows what n cycles would change at these places"],
    ] },
];
/** The form of each session line, by its first word. */
const FORM_BY_FIRST_WORD = new Map(LINES_BY_GROUPS.flatMap(({ lines }) => lines.map(([form]) => [form.split(/[ ,]/)[0], form])));

// --- bench/line_forms.js ---
/** @type {(word: string, similarWords: string[]) => string} */
export const unknownCommandMessage = (word, similarWords) => (
  `${word} is not a command${didYouMean(similarWords) || "; help shows the commands"}`);
/** @type {(word: string) => string} */
export const lineSyntax = (word) => `${word} is written as: ${FORM_BY_FIRST_WORD.get(word)}`;
/** @type {(word: string, similarWords: string[]) => string} */
export const noPlaceMessage = (word, similarWords) => (
  `${word} is not a place${didYouMean(similarWords) || "; help places shows the places"}`);
/** @type {(word: string) => string} */
export const noSuchPlaceMessage = (word) => `there is no place ${word}; help places shows which numbers are allowed in it`;
/** @type {(maximum: number) => string} */
export const tooManyPlacesMessage = (maximum) => `trace has at most ${maximum} places`;
/** @type {(word: string, first: number, last: number) => string} */
export const notInRangeMessage = (word, first, last) => `${word} is not a number from ${first} to ${last.toLocaleString("en")}`;
/** @type {(maximum: number, length: number) => string} */
export const tooLongMessage = (maximum, length) => `the line has ${length} characters; a line has at most ${maximum}`;
/** @type {(character: string) => string} */
export const invalidCharacter = (character) => {
  const code = /** @type {number} */ (character.codePointAt(0)).toString(16).toUpperCase();
  const name = character > "\x7f" ? character : `the byte ${code.padStart(2, "0")}`;
  return `a line can have only ASCII characters and tabs; this one has ${name}`;
};
