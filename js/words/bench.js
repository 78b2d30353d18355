// Messages of the bench, mainly about errors: wrong answers, failed calls, invalid ROM images. (The messages for the shell's error numbers
// are in tools/lib/refusals.txt.)

// --- bench/script_answers.js ---
export const SESSION_LINE_MISSING = "the first line of the answers must be `session N`";
/** @type {(answerLine: number, answer: string, scriptLine: number, scriptText: string) => string} */
export const noAnswerMessage = (answerLine, answer, scriptLine, scriptText) => (
  `line ${answerLine} of the answers, \`${answer}\`, does not answer line ${scriptLine} of the script, \`${scriptText}\``);
/** @type {(mismatch: string, commands: number) => string} */
export const wrongCommandCountMessage = (mismatch, commands) => `${mismatch}: ${commands} commands were accepted before it`;
/** @type {(answerLine: number, answer: string) => string} */
export const extraAnswerMessage = (answerLine, answer) => (
  `line ${answerLine} of the answers, \`${answer}\`, comes after the answer to the last line of the script`);

// --- bench/script_progress.js ---
/** @type {(commands: number, maximum: number) => string} */
export const tooManyCommandsMessage = (commands, maximum) => `it has accepted ${commands} commands, but the whole script has ${maximum}`;
/** @type {(commands: number) => string} */
export const answersDiffer = (commands) => `after ${commands} commands some answers differ`;

// --- bench/bench_errors.js ---
export const CANCELLED = "it was cancelled";
export const WORKER_STOPPED = "the bench's worker has stopped";

// --- bench/name_substitution.js ---
export const NO_SUCH_NAME = "the program has no such name";
export const NAMES_UNKNOWN = "names are known only while the source is the same as ROM";

// --- bench/run_log.js ---
/** @type {(runs: number, cycles: string) => string} */
export const mergedRuns = (runs, cycles) => `run .. (${runs} lines, ${cycles} cycles); the last one was answered`;

// --- bench/rom_image.js ---
export const IMAGE_IS_EMPTY = "it has no byte";
/** @type {(bytes: string, capacity: string) => string} */
export const tooManyBytesMessage = (bytes, capacity) => `it has ${bytes} bytes, and ROM has ${capacity}`;
/** @type {(bytes: string, freeBytes: string, first: string) => string} */
export const tooManyBytesFromMessage = (bytes, freeBytes, first) => (
  `it has ${bytes} bytes, and only ${freeBytes} fit from the address ${first}`);
export const BEGINS_WITH_COLON = "a record of Intel HEX begins with `:`";
export const RECORD_SYNTAX = "a record has `:`, ten hexadecimal digits and two for each byte";
/** @type {(count: number, bytes: number) => string} */
export const wrongByteCountMessage = (count, bytes) => `it announces ${count} bytes, but has ${bytes}`;
/** @type {(actual: string, expected: string) => string} */
export const wrongChecksum = (actual, expected) => `the checksum is ${actual}, but should be ${expected}`;
export const PAST_LAST_ADDRESS = "past the last address, FFF";
/** @type {(address: string) => string} */
export const duplicateAddress = (address) => `the address ${address}, which an earlier line already fills`;
/** @type {(type: number) => string} */
export const addressPastLast = (type) => `type 0${type} with a value other than 0: an address past FFF`;
/** @type {(type: string, size: number) => string} */
export const wrongRecordSize = (type, size) => `a record of type ${type} has ${["no", "one", "two", "three", "four"][size]} bytes`;
/** @type {(type: string) => string} */
export const unknownTypeMessage = (type) => `type ${type}, which has no meaning for a 4004`;
export const AFTER_LAST_RECORD = "a record after the last one (type 01)";
/** @type {(line: number, error: string) => string} */
export const imageErrorInLine = (line, error) => `line ${line}: ${error}`;
export const NO_LAST_RECORD = "it has no last record (:00000001FF), so a part of it is missing";

// --- bench/rom_formats.js ---
export const S_RECORD_SYNTAX = "a record of Motorola has `S`, a digit, and two hexadecimal digits for each byte";
export const SHORT_RECORD = "too short for its address";
export const AFTER_S9 = "a record after the last one (S9)";
export const NO_S9 = "it has no last record (S9), so a part of it is missing";
/** @type {(word: string) => string} */
export const bnpfSyntax = (word) => `a word of BNPF is B, eight of P and N, and F, as BNNNPNPNNF; this is ${word}`;
/** @type {(word: string) => string} */
export const bnpfWithoutEnd = (word) => `a word without its end, \`F\`: ${word}`;

// --- bench/error_messages.js ---
export const UNKNOWN_REFUSAL = "no refusal has this number; the manual lists them";
/** @type {(error: string) => string} */
export const moduleStopped = (error) => `the module stopped during a call (${error}) and was restarted`;
/** @type {(error: string) => string} */
export const restartedMessage = (error) => `${error} and was restarted`;
export const CALL_CANCELLED = "It was cancelled. The session is as it was before.";
/** @type {(reason: string) => string} */
export const notDoneMessage = (reason) => `It was not done: ${reason}. The session is as it was before.`;
/** @type {(reason: string) => string} */
export const pageFailed = (reason) => `The page failed: ${reason}. What was answered ok is kept.`;
