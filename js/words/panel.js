// Messages and labels of `mcs4 panel`, the front panel in a terminal.

// --- panel/terminal_panel.js ---
/** @type {(line: string, answer: string, meaning: string) => string} */
export const rejectedMessage = (line, answer, meaning) => `${line} is rejected: ${answer}: ${meaning}`;
export const NOTHING_HERE = "this key does nothing here; the last line lists the keys";
/** @type {(key: string) => string} */
export const noKeyMessage = (key) => `the board has no key ${key}`;

// --- panel/screen.js ---
/** @type {(title: string, session: string, commands: string, state: string) => string} */
export const titleLine = (title, session, commands, state) => ` ${title && `${title}: `}${session}   ${commands} commands   ${state}`;
export const RUNNING = "running";
/** @type {(reason: string) => string} */
export const pausedState = (reason) => `paused${reason && ` ${reason}`}`;
/** @type {(text: string) => string} */
export const displayLine = (text) => `display ${text}`;
/** @type {(marks: string) => string} */
export const lampsLine = (marks) => `lamps ${marks}`;
/** @type {(place: string, line: number, text: string) => string} */
export const nextSourceLine = (place, line, text) => `${place}, line ${line}: ${text}`;
/** @type {(place: string) => string} */
export const returnAddressLine = (place) => `  ret ${place}`;
/** @type {(chip: string, out: string) => string} */
export const portOutput = (chip, out) => `${chip} out ${out}`;
export const PRINTOUT_TITLE = "--- printout -----------";
/** @type {(test: string, hasMoreRam: boolean) => string} */
export const keyLine = (test, hasMoreRam) => (
  `space pause/run  Enter step  Tab break  ^T ${test}  ^R reset  ^D end${hasMoreRam ? "  arrows RAM" : ""}`);
export const TEST_PIN = "test";
/** @type {(name: string) => string} */
export const testKeyLabel = (name) => `${name}:^T`;

// --- node/commands/panel.mjs, node/panel_terminal.mjs ---
/** @type {(line: number, error: string) => string} */
export const boardErrorLine = (line, error) => `line ${line}: ${error}`;
export const NO_TERMINAL = "standard input and output must be a terminal";
/** @type {(kind: string) => string} */
export const unsuitableTerminalMessage = (kind) => (
  `it draws on the whole screen, and a terminal of the kind '${kind}' (TERM) cannot do that`);
/** @type {(minimum: string, columns: number, rows: number) => string} */
export const tooSmallMessage = (minimum, columns, rows) => `it needs a terminal of ${minimum}, and this one has ${columns} by ${rows}`;
/** @type {(columns: number, rows: number) => string} */
export const columnsByRows = (columns, rows) => `${columns} columns by ${rows} lines`;
/** @type {(minimum: string, columns: number, rows: number) => string} */
export const tooSmallNote = (minimum, columns, rows) => `panel: needs ${minimum}, this is ${columns} by ${rows}`;
