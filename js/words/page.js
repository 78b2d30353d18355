// Messages and labels of the console, the dialogs, the notices and the status bar, and messages about missing browser features.

// --- lines/lines_view.js ---
export const LINES_HINT = "Enter runs the lines, Shift+Enter adds one, the up arrow recalls earlier ones. Type help for commands.";

// --- lines/log_view.js ---
/** @type {(line: string, count: number) => string} */
export const textLines = (line, count) => `${line} .. (${count === 1 ? "1 line" : `${count} lines`})`;
/** @type {(error: string) => string} */
export const lineNotSavedMessage = (error) => `not saved: ${error}`;

// --- lines/line_server.js ---
export const SENDING_LINES = "Sending the lines.";
export const TOO_MANY_BYTES = "Not all lines were run: at most 16,777,216 bytes are read at once.";
export const RESET_RUNNING = "Running. The board was reset.";
/** @type {(counter: string) => string} */
export const resetTo = (counter) => `The board was reset; the program counter is at ${counter}.`;

// --- ui/confirm_dialog.js ---
export const YES = "Yes";
export const NO = "No";

// --- ui/folds.js ---
export const FOLD_HINT = "folds or unfolds this panel";

// --- ui/notice.js ---
export const DISMISS = "Dismiss";
export const DISMISS_NOTICE = "Dismiss the notice";
/** @type {(kind: string, text: string) => string} */
export const noticeText = (kind, text) => `${kind}: ${text}`;

// --- ui/notice_list.js ---
export const NOTICES = "Notices";
export const CLOSE = "Close";

// --- ui/progress_view.js ---
export const CANCELLING = "Cancelling.";

// --- compose_board.js ---
export const RECORDING_LINES = "Recording the lines.";
export const NOTHING_RECORDED = "It was cancelled, and nothing was recorded.";

// --- snapshot_view.js ---
/** @type {(reason: string) => string} */
export const notSetMessage = (reason) => `Not set: ${reason}`;
export const NOT_DONE = "It was not done.";

// --- bench_page.js ---
/** The name of a session whose board has no title. */
export const MY_BOARD = "my board";

// --- main.js ---
export const NO_STORE = "This browser stores nothing for this page: its store (IndexedDB) is missing, is blocked by the settings, or does "
  + "not answer. Everything works, but save the session to a file before you leave.";
export const BULK_MEMORY = "WebAssembly with bulk memory";
export const BIG_INTEGERS = "integers of any size (BigInt)";
/** @type {(feature: string, requirements: string) => string} */
export const featureMissing = (feature, requirements) => `This browser has no ${feature}. ${requirements}`;
/** @type {(reason: string, requirements: string) => string} */
export const cannotStartMessage = (reason, requirements) => `The bench could not be started: ${reason}. ${requirements}`;

// --- ui/status_view.js ---
export const ROM_MATCHES = "ROM matches source";
export const ROM_DIFFERS = "ROM differs from source";
/** The status bar's messages about saving, by the session's state. */
export const SAVING_STATES = { example: "Not saved", saved: "Saved in this browser", failed: "Not saved" };

// --- print_view.js ---
/** @type {(name: string) => string} */
export const sourceTitle = (name) => `${name}: source`;
/** @type {(name: string) => string} */
export const boardTitle = (name) => `${name}: board`;

// --- recovery.js ---
export const PAUSED = "Paused.";
export const WORKER_RESTARTED = "The bench's worker stopped and was restarted. The session is unchanged.";
/** @type {(reason: string) => string} */
export const cannotRestartMessage = (reason) => `The bench has stopped and could not be restarted: ${reason}. Save the session to a file.`;

// --- compose_session.js ---
export const DISASSEMBLE_ROM = "Disassemble ROM";

// --- compose_texts.js ---
export const RUNNING_TESTS = "Running the tests.";
export const KEY_SCAN_INSERTED = "A routine that scans the keys is at the end of the source.";
/** @type {(line: number) => string} */
export const keyScanAt = (line) => `A routine that scans the keys is at line ${line} of the source.`;
export const TEST_ALREADY_THERE = "Tests already has it.";
export const TEST_ADDED = "A test was added.";
export const TEST_AT_END = "It is at the end of Tests, where Run tests runs it.";
