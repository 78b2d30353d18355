// The debug adapter's messages and labels, which users see in their editor.

// --- adapter/adapter_connection.js ---
export const MESSAGE_SYNTAX = "a message has a number seq, the type \"request\" and a command";
/** @type {(command: string) => string} */
export const unsupportedRequestMessage = (command) => `unsupported request: ${command}`;

// --- adapter/progress.js ---
/** @type {(id: string) => string} */
export const unknownProgressIdMessage = (id) => `no work in progress has the progressId ${id}`;

// --- adapter/query_handlers.js ---
export const ROM_CONTENTS = "the contents of ROM";
export const DISASSEMBLED_FROM_ROM = "disassembled from ROM";
/** @type {(name: string) => string} */
export const onlySourceMessage = (name) => `there is one source, ${name}`;
export const UNKNOWN_REFERENCE = "this reference is unknown";
export const NO_SUCH_FRAME = "there is no such frame; use a frameId that stackTrace returned";
export const NO_SUCH_LINE = "`text` has no such line";
/** @type {(maximum: number) => string} */
export const instructionCountRangeMessage = (maximum) => `instructionCount must be 0 to ${maximum}`;

// --- adapter/memory.js ---
/** @type {(part: string) => string} */
export const boardHasNo = (part) => `the board has no ${part}`;
export const COUNT_RANGE = "count must be 0 or more";
export const OUTSIDE_OF_MEMORY = "it is outside memory";
/** @type {(line: string, answer: string) => string} */
export const benchAnswered = (line, answer) => `${line}: the bench answered ${answer}`;
export const BASE_64_REQUIRED = "data must be in base 64";

// --- adapter/client_breakpoints.js ---
export const HIT_COUNT_SYNTAX = "a hit count is a number, such as 5: the breakpoint stops at that hit and at each later one";
/** @type {(maximum: number) => string} */
export const tooManyEnabledMessage = (maximum) => `at most ${maximum} breakpoints can be on`;
/** @type {(place: string) => string} */
export const notWatchedMessage = (place) => (
  `${place} cannot be watched; registers, pairs, and the board's ports, lines, lamps, chains and RAM characters can`);
export const ONLY_CHANGES = "only changes can be watched (accessType write)";
/** @type {(kind: string) => string} */
export const unknownFilterMessage = (kind) => `unknown exception filter: ${kind}`;
/** @type {(place: string) => string} */
export const placeChanges = (place) => `${place} changes`;

// --- adapter/console.js ---
export const HELP = `Lines of the bench (regs, list @show 5, ram 0, poke r4 7, run 100, step, reset, ..), with @NAME for an address.
press KEY, release KEY: a key goes down, or up; while running, press is a short press. keys KEYS: short presses, as time passes.
until LABEL or ADDRESS, change PLACE: runs up to there. back: an instruction back; back PLACE: to before its last change. forward: returns.
R4, P2, ram.0.0x12, rom1, lamps, display, a name, a condition (r9 = 9 or lamp open on): its current value. set PLACE = VALUE.`;
/** @type {(maximum: number) => string} */
export const tooLongMessage = (maximum) => `a line has at most ${maximum} characters`;
/** @type {(reason: string) => string} */
export const withHelpHint = (reason) => `${reason}; help shows what a line can be`;
/** @type {(word: string) => string} */
export const keySyntax = (word) => `write ${word} KEY`;
/** @type {(count: number) => string} */
export const keysArePending = (count) => `${count} key${count === 1 ? " waits" : "s wait"} until the machine runs (continue)`;
export const MACHINE_IS_RUNNING = "the machine is running: pause it first";
/** @type {(syntax: string) => string} */
export const placeSyntax = (syntax) => `write ${syntax}`;
export const UNTIL_SYNTAX = "until LABEL, until ADDRESS or until CONDITION";
export const CHANGE_SYNTAX = "change PLACE, as in change r4";
/** @type {(maximum: number) => string} */
export const tooManyLinesMessage = (maximum) => `at most ${maximum} lines are accepted at once`;
/** @type {(word: string) => string} */
export const noAddressMessage = (word) => `${word} is neither a label of the program nor an address such as 0x00D`;
export const ADDRESS_RANGE = "addresses are 0x000 to 0xFFF";

// --- adapter/debug_adapter.js ---
export const NOTHING_LAUNCHED = "nothing is launched yet: send launch or attach first";
export const PATHS_ONLY = "pathFormat must be \"path\"; URIs are not supported";
export const EXCEPTION_CONDITION_HINT = "a condition, as in r5 > 8 and lamp open on: it pauses only if this is true before the instruction";
export const RUNNING_LINES = "Running lines";
/** @type {(done: number, total: number) => string} */
export const characterProgress = (done, total) => `${done.toLocaleString("en")} of ${total.toLocaleString("en")} characters`;
export const CONFIGURED_ONCE = "configurationDone can be sent only once";
export const LAUNCH_ONCE = "launch can be sent only once";
/** @type {(reason: string) => string} */
export const sourceDiffers = (reason) => `The source now differs from ROM: ${reason}.`;
/** @type {(name: string) => string} */
export const notInProgramMessage = (name) => `it is not in ${name}, the program being debugged`;
export const RUNS_WITHOUT_DEBUGGER = "this runs without a debugger (noDebug)";

// --- node/file_locks.mjs, node/debug_host.mjs ---
/** @type {(holder: string) => string} */
export const openInMessage = (holder) => `it is open in ${holder}`;
/** @type {(name: string, holder: string) => string} */
export const sessionInUse = (name, holder) => `${name} is in use by ${holder || "another program"}; wait until that has ended`;

// --- adapter/session_writer.js ---
/** @type {(answer: string) => string} */
export const sessionFileNotWritten = (answer) => `the session's file was not written: the program answered ${answer}`;
export const STATES_DIFFER = "the session's file reached another state than the session in memory";

// --- adapter/session_launch.js ---
export const TEST_NEEDS_TESTS = "`test` needs `tests`, the file of tests that has it";
export const LAUNCH_SYNTAX =
  "launch needs \"project\", a folder with mcs4.toml, or \"program\", a program's text, or \"session\", a session file";
/** @type {(error: string) => string} */
export const boardHint = (error) => `${error}; without "board", the board is the project's, or board.toml next to the program`;
export const FILE_NAMED_TWICE = "program and session name the same file";
/** @type {(file: string) => string} */
export const noProjectFileMessage = (file) => `there is no ${file}, which names the board and the program of a project`;
export const DOT_ALONE = "a line with only a dot";
/** @type {(program: string) => string} */
export const noBoardBesideMessage = (program) => `there is no board.toml next to ${program}: "board" names the board's text`;
/** @type {(session: string) => string} */
export const sessionMissing = (session) => `${session} does not exist; "board" and "program" create it`;
export const ATTACH_SYNTAX = "attach needs \"session\", a session file; launch starts a program";
/** @type {(session: string) => string} */
export const noSessionMessage = (session) => `there is no session file ${session}`;
export const PROGRAM_HAS_ERRORS = "the program has errors";
/** @type {(hasRom: boolean, address: string) => string} */
export const romDiffers = (hasRom, address) => `ROM has ${hasRom ? "another byte" : "no chip"} at 0x${address}`;
/** @type {(program: string, session: string, reason: string) => string} */
export const differsFromRomMessage = (program, session, reason) => `${program} differs from the ROM of ${session}: ${reason}`;
/** @type {(difference: string) => string} */
export const loadHint = (difference) => (
  `${difference}. "load": true puts the program into ROM; without "program" the source is disassembled from ROM`);

// --- adapter/debugged_machine.js ---
export const RUNNING = "Running";
export const SEARCHING_BACK = "Searching the past";
export const MACHINE_RUNS_ALREADY = "the machine is already running: pause it first";
/** @type {(count: number) => string} */
export const earlierNotesOmitted = (count) => `(${count} earlier notes omitted)`;

// --- adapter/test_launch.js ---
/** @type {(name: string, file: string) => string} */
export const noSuchTestMessage = (name, file) => `${file} has no test ${name}`;
/** @type {(name: string) => string} */
export const testHasPassed = (name) => `The test ${name} passed. The session is at the end of the test; step back to see how it got there.`;
/** @type {(file: string, line: number, error: string) => string} */
export const testsHaveError = (file, line, error) => `${file}, line ${line}: ${error || "it has an error"}; no test is run`;

// --- adapter/move_requests.js ---
export const CONFIGURATION_NOT_DONE = "send configurationDone first";
export const ONLY_ONE_THREAD = "there is one thread, 1";
export const NO_SUCH_TARGET = "there is no such target";
export const PROGRAM_FRAME_HAS_NO_CALLER = "this frame is the program itself, which no call entered; restart starts it again";

// --- adapter/number_format.js ---
export const FORMAT_OBJECT_SYNTAX = "format must be an object, such as { \"hex\": true }";

// --- adapter/dap_protocol.js ---
/** @type {(name: string) => string} */
export const mustBeIntegerMessage = (name) => `${name} must be a whole number`;
/** @type {(name: string) => string} */
export const mustBeBooleanMessage = (name) => `${name} must be true or false`;
/** @type {(name: string) => string} */
export const mustBeListMessage = (name) => `${name} must be a list`;

// --- adapter/scopes.js ---
/** @type {(chips: number, isSelected: boolean) => string} */
export const chipCountText = (chips, isSelected) => `${chips === 1 ? "1 chip" : `${chips} chips`}${isSelected ? ", selected by DCL" : ""}`;
/** @type {(chip: number, register: number) => string} */
export const chipRegister = (chip, register) => `chip ${chip}, register ${register}`;
/** @type {(byte: string, chip: number) => string} */
export const selectsRom = (byte, chip) => `${byte}: ROM ${chip}`;
export const REGISTERS = "Registers";
export const PAIRS = "Pairs";
export const PORTS = "Ports";
export const LAMPS = "Lamps";
export const KEYS = "Keys";
export const NAMES = "Names";
/** @type {(isOn: boolean) => string} */
export const lampState = (isOn) => (isOn ? "on" : "off");
/** The two values of a key, as the editor shows and accepts them. */
export const DOWN = "down";
export const UP = "up";
/** @type {(name: string) => string} */
export const notFoundHereMessage = (name) => `there is no ${name} here`;
/** @type {(name: string) => string} */
export const readOnlyMessage = (name) => `${name} cannot be set: only the machine changes it`;

// --- adapter/place_assignment.js ---
/** @type {(text: string) => string} */
export const notANumberMessage = (text) => `${text} is neither a number (10, 0x0A, 0b1010) nor a name`;
export const NOTHING = "nothing";
export const KEY_VALUE_SYNTAX = "a key is down or up";
/** @type {(place: string, maximum: number) => string} */
export const valueRangeMessage = (place, maximum) => `${place} holds 0 to ${maximum}`;
/** @type {(place: string, answer: string) => string} */
export const cannotBeSetMessage = (place, answer) => `${place} cannot be set: the bench answered ${answer}`;

// --- adapter/remote_front_panel.js ---
export const KEY_PLACE_SYNTAX = "a key's place is its row and column, such as 0 2, or test and a level";

// --- adapter/expression_values.js ---
export const NOTHING_TO_EVALUATE = "there is nothing to evaluate";
