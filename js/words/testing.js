// Messages and labels about tests: errors, results, coverage and profiles.

// --- testing/coverage.js ---
/** @type {(counts: number[], percent: string, percentOfDirections: string) => string} */
export const coverageSummary = ([executed, instructions, taken, directions], percent, percentOfDirections) => (
  `${executed} of ${instructions} instructions were run${percent}, ${taken} of ${directions} branch directions${percentOfDirections}`);

// --- testing/coverage_text.js ---
export const NEVER = "never";
/** @type {(from: number, to: number) => string} */
export const formatRange = (from, to) => `${from} to ${to}`;
/** @type {(line: number, isTaken: boolean) => string} */
export const describeDirection = (line, isTaken) => `${line} (${isTaken ? "always" : "never"} taken)`;
/** @type {(lines: string, isPlural: boolean) => string} */
export const neverRun = (lines, isPlural) => `never run: ${isPlural ? "lines" : "line"} ${lines}`;
/** @type {(lines: string, isPlural: boolean) => string} */
export const oneDirectionOnly = (lines, isPlural) => `only one way: ${isPlural ? "lines" : "line"} ${lines}`;

// --- testing/last_instructions.js ---
/** @type {(row: string) => string} */
export const nextInstructionLine = (row) => `${row}comes next`;

// --- testing/last_label.js ---
/** @type {(cycles: number) => string} */
export const cyclesAgo = (cycles) => `${cycles} cycle${cycles === 1 ? "" : "s"} ago`;
/** @type {(label: string, ago: string) => string} */
export const lastLabel = (label, ago) => `; the last label passed is ${label}, ${ago}`;
/** @type {(label: string, place: string, time: string) => string} */
export const lastLabelAndCondition = (label, place, time) => `${label}; ${place} was ${time}`;
/** @type {(ago: string) => string} */
export const lastPassedAgo = (ago) => `last passed ${ago}`;
export const NOT_PASSED = "not passed in this test";

// --- testing/profile_text.js ---
/** @type {(time: string) => string} */
export const inMilliseconds = (time) => `${time} ms`;
/** @type {(cycles: number, time: string) => string} */
export const cyclesInTime = (cycles, time) => `${cycles} cycles, ${time}`;
export const PROFILE_HEADINGS = ["label", "at", "own", "own %", "calls", "with calls", "longest"];
export const KEY_TABLE_HEADINGS = ["key", "presses", "answered", "longest to a lamp", "to the last lamp"];

// --- testing/tap.js ---
/** @type {(text: string) => string} */
export const tapMessage = (text) => `message: ${text}`;
/** @type {(text: string) => string} */
export const tapLocation = (text) => `at: ${text}`;
/** @type {(text: string) => string} */
export const tapLine = (text) => `line: ${text}`;
/** @type {(cycles: number) => string} */
export const tapCycles = (cycles) => `cycles: ${cycles}`;
/** @type {(text: string) => string} */
export const tapLamps = (text) => `lamps: ${text}`;
/** @type {(text: string) => string} */
export const tapRegisters = (text) => `registers: ${text}`;
export const TAP_TRACE = "trace: |";

// --- testing/test_run.js ---
/** @type {(state: string, test: string) => string} */
export const stateMissing = (state, test) => `the state ${state} is missing, because the test \`${test}\` did not reach its \`save\``;
/** @type {(line: number, file: string) => string} a reference to a line in this text, or in another file */
const lineLocation = (line, file) => (file ? `${file}:${line}` : `line ${line}`);
/** @type {(name: string, line: number, file: string) => string} */
export const describeSharedSteps = (name, line, file) => `the steps ${name} called at ${lineLocation(line, file)}`;
/** @type {(iteration: number, count: number, line: number) => string} */
export const repetitionText = (iteration, count, line) => `pass ${iteration} of ${count} of the repeat at line ${line}`;
/** @type {(cycles: number, reason: string) => string} */
export const runStopped = (cycles, reason) => `the run stopped after ${cycles} cycles ${reason}`;
/** @type {(address: string) => string} */
export const beforeInvalidOpcode = (address) => `before a code that is not an instruction, at ${address}`;
/** @type {(place: string, value: number) => string} */
export const valuePrefix = (place, value) => `${place} is ${value}, and `;
/** @type {(prefix: string, word: string, keys: string) => string} */
export const tooFewKeysMessage = (prefix, word, keys) => `${prefix}${word} has ${keys}`;
/** @type {(prefix: string, key: number, digit: string) => string} */
export const noKeyForValueMessage = (prefix, key, digit) => `${prefix}the board has no key ${key}${digit}`;
/** @type {(digit: string | number) => string} */
export const orDigitKey = (digit) => `, nor ${digit}`;
/** @type {(cycles: number, reason: string, message: string) => string} */
export const runStoppedAt = (cycles, reason, message) => `the run stopped after ${cycles} cycles ${reason}; ${message}`;
/** @type {(cycles: number, message: string, passed: string) => string} */
export const notReachedMessage = (cycles, message, passed) => `it did not become true within ${cycles} cycles: ${message}${passed}`;

// --- testing/test_text.js ---
/** @type {(word: string) => string} */
export const noRomAtMessage = (word) => `the board has no ROM at ${word}`;
export const RUN_SYNTAX = "write `run TIME`, as in: run 500, run 20 ms, run 1.5 s";
export const REPEAT_SYNTAX = "write `repeat COUNT`, 1 to 100,000: the lines down to its `end` are run COUNT times";
export const CHOICE_SYNTAX =
  "to choose a key by a value, write `{PLACE}` or `{PLACE:KEY,KEY}`; places are acc, cy, dcl, r0 to r15, ram.B.S and st.B.H.K";
export const FIRST_WORDS = "test, steps, from, save, press, release, keys, pace, run, until, expect, mark, set, reset, do, repeat or end";
export const NO_TEST = "there is no line `test NAME`";
export const NOT_ASCII = "a byte that is neither a tab nor a printable ASCII character";
/** @type {(line: string) => string} */
export const beginsWithTest = (line) => `tests begin with \`test NAME\`, but this line is: ${line}`;
export const TEST_NAME_MISSING = "a test needs a name: test NAME";
export const STEPS_NAME_MISSING = "shared steps need a name of one word: steps NAME";
/** @type {(name: string, line: number, file: string) => string} */
export const stepsDefinedTwice = (name, line, file) => `the steps ${name} are already defined at ${lineLocation(line, file)}`;
export const REPEAT_END_MISSING = "this `repeat` has no `end`";
export const END_SYNTAX = "`end` takes no argument";
export const REPEAT_MISSING = "there is no `repeat` for this `end`";
export const TOO_MANY_LINES = "this repeats more than 1,000,000 lines";
export const DO_SYNTAX = "write `do STEPS`, the name of shared steps";
/** @type {(name: string) => string} */
export const stepsUseThemselves = (name) => `the steps ${name} cannot run themselves`;
/** @type {(knownNames: string, name: string) => string} */
export const knownSteps = (knownNames, name) => (knownNames ? `; shared steps: ${knownNames}` : `; define them with \`steps ${name}\``);
/** @type {(name: string, knownNames: string) => string} */
export const noStepsMessage = (name, knownNames) => `there are no steps ${name} before this line${knownNames}`;
/** @type {(word: string) => string} */
export const takesNoArgument = (word) => `\`${word}\` takes no argument`;
/** @type {(word: string, firstWords: string) => string} */
export const unknownFirstWord = (word, firstWords) => `a line of a test cannot begin with \`${word}\`; it can begin with ${firstWords}`;
/** @type {(word: string) => string} */
export const stateSyntax = (word) => `write \`${word} STATE\`: the name of a state is one word`;
export const SAVED_ONCE = "a state is saved once: `save` cannot be in a `repeat`";
/** @type {(word: string) => string} */
export const noStatesMessage = (word) => `shared steps have no states: \`${word}\` belongs in a test`;
/** @type {(state: string, test: string) => string} */
export const stateAlreadySaved = (state, test) => `the state ${state} is already saved by an earlier test, \`${test}\``;
export const FROM_POSITION = "`from` must be right below `test`";
/** @type {(states: string) => string} */
export const knownStates = (states) => `; saved states: ${states}`;
/** @type {(state: string, hint: string) => string} */
export const noSuchStateMessage = (state, hint) => `no earlier test saves a state ${state}${hint}`;
export const OWN_STATE = "a test cannot begin with a state that it saves itself";
/** @type {(word: string, isPlural: boolean) => string} */
export const keysSyntax = (word, isPlural) => `write \`${word} ${isPlural ? "KEYS" : "KEY .."}\``;
/** @type {(name: string, word: string) => string} */
export const nameNorWord = (name, word) => `${name}, nor ${word}`;
/** @type {(key: string, keyNames: string) => string} */
export const noKeyMessage = (key, keyNames) => (
  `the board has no key ${key}; ${keyNames ? `it has: ${keyNames}` : "its text names no keys (`# row 0: NAME ..`)"}`);
export const UNTIL_SYNTAX = "write `until CONDITION within TIME`";
export const WITHIN_SYNTAX = "it ends with `within TIME`, as in: within 500, within 20 ms, within 1.5 s";
export const CYCLES_NOT_ALLOWED = "`until` cannot ask for cycles; use `run` or `expect`";
export const PACE_SYNTAX = "write `pace TIME TIME`: how long each key is down, and how long it is up before the next key";

// --- testing/tests_tab.js ---
export const TESTS_CANCELLED = "It was cancelled; the results shown are from the previous run.";

// --- testing/tests_view.js ---
export const NOT_OK = "not ok";
export const LAST_INSTRUCTIONS = "The last instructions";
export const OPEN_AT_FAILURE = "Open the session at the failure";
export const NO_LABEL = "(no label)";
export const BEGUN_EARLIER = "(begun earlier)";
/** @type {(cycles: string, milliseconds: string) => string} */
export const cyclesAndTime = (cycles, milliseconds) => `${cycles}, ${milliseconds} ms`;
