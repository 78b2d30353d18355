// Messages of the `mcs4 new` and `mcs4 open` prompt. They complement the bench's answers.

// --- prompt/bench_prompt.js, prompt/source_command.js, node/session_terminal.mjs ---
export const GREETING = "help lists the commands, quit leaves.";
export const PROMPT_LINES_TITLE = "At this prompt:";
/** @type {[string, string][]} the lines that only the prompt accepts, with their effects */
export const PROMPT_LINES = [
  ["wire FILE, asm FILE", "reads a board's or a program's text from a file"],
  ["map FILE", "shows the addresses of the program in a file"],
  ["wiring FILE, errors FILE", "shows what is wrong with the text in a file"],
  ["source FILE", "serves the lines of a file, up to an error"],
  ["help LINE", "explains a line; also help places, help 41"],
  ["quit", "leaves; so does Ctrl-D"],
];
export const PROMPT_KEYS = "Tab completes a line, Up recalls earlier ones, Ctrl-C drops what is typed.";
/** The title of the manual section about places. */
export const PLACES_TITLE = "Places";
/** @type {(word: string) => string} */
export const textDropped = (word) => `the text of ${word} is dropped`;
/** @type {(name: string, line: number, message: string) => string} */
export const errorInFile = (name, line, message) => `${name}: line ${line}: ${message}`;
/** @type {(name: string, line: number, message: string) => string} */
export const errorInText = (name, line, message) => `${name && `${name}: `}${line > 0 ? `line ${line}: ` : ""}${message}`;
export const SOURCE_SYNTAX = "source is written as: source FILE";
/** @type {(maximum: number) => string} */
export const sourcesTooDeep = (maximum) => `source files can be nested at most ${maximum} deep`;
/** @type {(name: string, dropped: string) => string} */
export const endsTooSoon = (name, dropped) => `${name} ends too soon; ${dropped}`;
/** @type {(key: string, row: number, column: number) => string} */
export const noKeyMessage = (key, row, column) => `the board has no key ${key}; its rows are 0 to ${row}, its columns 0 to ${column}`;
/** @type {(place: string) => string} */
export const noRomAtMessage = (place) => `the board has no ROM with the address of ${place}; board shows its chips`;
/** @type {(cycles: string) => string} */
export const invalidRunLength = (cycles) => `a run takes 1 to 100,000 cycles, not ${cycles}`;
