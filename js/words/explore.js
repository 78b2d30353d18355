// Messages and labels about properties, and about the search for key sequences that break them.

// --- explore/start_state.js ---
/** @type {(state: string) => string} */
export const noTestsMessage = (state) => `there are no tests, so none saves the state ${state}`;
/** @type {(line: number, message: string) => string} */
export const testsHaveError = (line, message) => `its tests have an error on line ${line}: ${message}`;
/** @type {(state: string, states: string) => string} */
export const noSuchStateMessage = (state, states) => `no test saves a state ${state}${states && `; saved states: ${states}`}`;
/** @type {(line: number, text: string, message: string) => string} */
export const testFails = (line, text, message) => `line ${line} of its tests fails: ${text}: ${message}`;

// --- explore/campaign.js ---
export const FIRST_WORDS = "press, test, reset, together, wait, held, apart, from, begin, note, pace, never, always, at, after press, "
  + "every, no, reach, model, while, once, or are written as `C only after press K, press K ..`, `@LABEL at most once for each press` or "
  + "`@LABEL to @LABEL within TIME`";
/** @type {(word: string) => string} */
export const labelSyntax = (word) => `a label is written as @LABEL, not ${word}`;
export const WAIT_SYNTAX = "write `wait TIME to TIME`, from 1 cycle to 100,000 (1.08 s), as in: wait 1 ms to 20 ms";
export const PRESS_SYNTAX = "write `press KEY ..`: the keys that may go down";
export const TEST_SYNTAX = "`test` takes no argument: TEST may change";
export const RESET_SYNTAX = "`reset` takes no argument: the power may be cycled";
export const TOGETHER_SYNTAX = "write `together N`: at most N keys are down at a time";
export const HELD_SYNTAX = "write `held at most TIME`: no key is down for longer";
export const APART_SYNTAX = "write `apart at least TIME`: a key that went up stays up for that long";
export const FROM_SYNTAX = "write `from STATE` or `from STATE of FILE.test`: the search begins in a state that a test saves";
export const FROM_REPEATED = "an earlier line already has a state to begin from";
export const BEGIN_SYNTAX = "write `begin after TIME`: nothing before that is checked";
export const PACE_SYNTAX = "write `pace TIME TIME`: how long a key is down for a model, and how long it is up";
export const NOTE_SYNTAX = "write `note PLACE ..`: what makes a state new, as in: note lamps r10 ram.0.0x12";
/** @type {(maximum: number) => string} */
export const tooManyNotesMessage = (maximum) => `at most ${maximum} places can be noted`;
export const PC_NOT_ALLOWED = "pc changes at each instruction, so it cannot make a state new";
/** @type {(word: string) => string} */
export const noTraceMessage = (word) => `no trace shows ${word}`;
export const NEVER_SYNTAX = "write `never CONDITION` or `never CONDITION for TIME`";
export const FOR_SYNTAX = "it ends with `for TIME`, as in: for 20 ms";
export const AT_SYNTAX = "write `at @LABEL CONDITION`";
export const AFTER_SYNTAX = "write `after press KEY within TIME CONDITION`, as in: after press # within 50 ms lamp open on";
export const GUARD_SYNTAX = "a guard is written as `while CONDITION,`, `once CONDITION,`, `after press KEY,` or "
  + "`after press KEY within TIME,` before never, always, at, after press or reach";
/** @type {(maximum: number) => string} */
export const tooManyGuardsMessage = (maximum) => `a property has at most ${maximum} guards`;
export const WITHIN_SYNTAX = "write `@LABEL to @LABEL within TIME`, as in: @scan to @shown within 20 ms";
export const SHORT_PRESS_SYNTAX = "write `no press below TIME reaches @LABEL`, from 2 cycles to 100,000 (1.08 s), as in: "
  + "no press below 5 ms reaches @open";
export const NOTHING_TO_PRESS = "the board's text names no keys and no button or switch at TEST, so nothing can be pressed";
export const EVERY_SYNTAX = "write `every TIME @LABEL`, as in: every 20 ms @scan";
/** @type {(line: string) => string} */
export const noInstructionInMessage = (line) => `line ${line} of the program has no instruction`;
export const MODEL_REPEATED = "an earlier line already has a model";
export const MODEL_SYNTAX = "write `model COMMAND`: the command gets keys, and prints what the display must show";
export const DISPLAY_IS_MULTIPLEXED = "the display's digits are multiplexed, but a model needs a display that shows its number at once";
export const ONLY_AFTER_SYNTAX = "write `CONDITION only after press KEY, press KEY ..`";
/** @type {(word: string, firstWords: string) => string} */
export const unknownFirstWord = (word, firstWords) => `a line cannot begin with \`${word}\`; it can begin with ${firstWords}`;
export const NO_INPUT_MAY_CHANGE =
  "no input may change: the board's text names no keys and no TEST; `test` allows changes of TEST, `reset` power cycles";
export const MODEL_NEEDS_KEYS = "a model gets keys, but no key may go down";

// --- explore/explore_tab.js ---
export const SECONDS_RANGE = "Seconds must be a number from 1 to 86,400.";
export const SEED_RANGE = "The seed must be a number from 1 to 99,999,999.";
export const STOP = "Stop";
export const SEARCH = "Search";
export const STARTING = "Starting.";
export const STOPPED_BEFORE_START = "It was stopped before it started.";
export const SOURCE_HAS_CHANGED = "The source has changed since then: search again.";

// --- explore/explore_view.js ---
export const SHOW_AS_TEST = "Show as test";
export const OPEN_AS_SESSION = "Open";
export const NEW_SESSION_HINT = "a new session, at the end of the counterexample";
export const ADD_TO_TESTS = "Add to tests";
export const AT_END = "at the end of Tests";
/** @type {(line: number) => string} */
export const lineOfSource = (line) => `Line ${line} of the source`;
export const NO_STEPS = "No steps were run.";
export const NEVER_RUN = "Never run: lines";

// --- explore/sliced_search.js ---
export const TEXT_NAMES = { board: "Board", program: "Source", properties: "Properties" };

// --- explore/counterexample_test.js ---
export const FOURTH_CALL = "the fourth call leads there, and the oldest return address is lost";
export const RETURN_WITHOUT_CALL = "a BBL leads there, but no call is open";
export const MISTAKE_CONFIRMED = "the instruction there makes the mistake";
export const REACHED_MORE_OFTEN_THAN_PRESSES = "the counter was there more often than keys were pressed";

// --- explore/properties.js ---
export const ONLY_INSTRUCTION_CODES = "only codes that are instructions";
export const NO_FOURTH_CALL = "no more than three calls open";
export const NO_RETURN_WITHOUT_CALL = "no BBL without a call";

// --- explore/report.js ---
/** @type {(place: string, text: string) => string} the message about a model line that was not run; `place` is its location */
export const notRunMessage = (place, text) => `not run: ${text} (${place}): it runs a command of your shell; --allow-model allows it`;
/** @type {(count: number, lines: string) => string} */
export const lineList = (count, lines) => `${count === 1 ? "line" : "lines"} ${lines}`;
/** @type {(count: number, total: number) => string} */
export const partOfTotal = (count, total) => `${count} of ${total}`;
/** @type {(seeds: number[], steps: string, seconds: string, rate: string, states: string, isStopped: boolean) => string} */
export const statisticsLine = (seeds, steps, seconds, rate, states, isStopped) => (
  `# ${seeds.length === 1 ? "seed" : "seeds"} ${seeds.join(" ")}: ${steps} steps in ${seconds} s of processor time${rate}; `
  + `${states} states${isStopped ? "; stopped" : ""}`);
/** @type {(chains: string) => string} */
export const keySequenceCount = (chains) => `${chains} key sequences`;
/** @type {(steps: string, states: string) => string} */
export const stepsAndStates = (steps, states) => `${steps} steps, ${states} states`;
export const NEVER_CHECKED = "never checked";
/** @type {(verb: string, steps: string, cycles: string, seed: number) => string} */
export const foundBy = (verb, steps, cycles, seed) => `${verb} by ${steps}, ${cycles} cycles (seed ${seed})`;
/** @type {(run: string, ways: string) => string} */
export const coverageText = (executed, directions) => `${executed} instructions were run, ${directions} branch directions`;
/** @type {(lines: string) => string} */
export const neverRun = (lines) => `never run: ${lines}`;
/** @type {(lines: string) => string} */
export const alwaysOneWay = (lines) => `always went one way: ${lines}`;
/** @type {(steps: string) => string} */
export const stepsPerSecond = (steps) => `, ${steps} a second`;
/** @type {(board: string, program: string) => string} */
export const counterexamplesHeader = (board, program) => `# Found by mcs4 explore: mcs4 test ${board} ${program} and this file.\n`;

// --- explore/subject.js ---
/** @type {(which: string, number: number, line: string) => string} */
export const textRejectedMessage = (which, number, line) => `the ${which} is rejected: no ${number}${line}`;
