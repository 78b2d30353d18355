// The language server's messages and labels, which users see in their editor, and error messages about `mcs4.toml`.

// --- server/dependent_language.js ---
/** @type {(file: string) => string} */
export const dependencyMissing = (file) =>
  `there is no ${file} here, so this text is not checked; mcs4.toml can name a board and a program`;
/** @type {(file: string, line: number) => string} */
export const dependencyHasError = (file, line) => `${file} has an error${line > 0 ? ` on line ${line}` : ""}, so this text is not checked`;

// --- server/board_language.js ---
export const NO_BOARD_NAMES = "A board's text has no names that can be changed here.";

// --- server/board_references.js ---
/** @type {(line: string, chip: string) => string} */
export const lineOfRom = (line, chip) => `line ${line} of the port of ROM ${chip}`;
/** @type {(bit: string, chain: string) => string} */
export const bitOfChain = (bit, chain) => `bit ${bit} of chain ${chain}`;
/** @type {(line: string, chip: string, bank: string) => string} */
export const lineOfRam = (line, chip, bank) => `line ${line} of the port of RAM chip ${chip} in bank ${bank}`;
/** @type {(isChain: boolean, line: number) => string} */
export const definitionSuffix = (isChain, line) => `; its ${isChain ? "chain" : "chip"} is on line ${line}`;

// --- server/connection.js, server/message_stream.js ---
/** @type {(bytes: number) => string} */
export const messageNotRead = (bytes) => `a message of ${bytes} bytes was not read`;
export const NOT_JSON = "a message is not JSON";
export const MESSAGE_SYNTAX = "a message has jsonrpc \"2.0\", a method, and an id if it is answered";
export const EXIT_AFTER_SHUTDOWN = "after shutdown only exit is accepted";
export const INITIALIZE_FIRST = "send initialize first";
export const INITIALIZE_ONCE = "initialize can be sent only once";
/** @type {(method: string) => string} */
export const noMethodMessage = (method) => `there is no method ${method} here`;
/** @type {(id: number | string | null) => string} */
export const requestPending = (id) => `a request with the id ${id} waits for its answer`;

// --- server/diagnostics.js ---
export const MAY_BE_MORE = "There may be more errors.";
/** @type {(maximum: string, size: string) => string} */
export const textTooLong = (maximum, size) => `a text has at most ${maximum} characters; this one has ${size} and exceeds the limit here`;
/** @type {(text: string) => string} */
export const quickFixTitle = (text) => `Write ${text}`;

// --- server/framing.js ---
export const HEADER_SYNTAX = "a message begins with the line Content-Length: N, then an empty line";
/** @type {(maximum: number) => string} */
export const headerTooLongMessage = (maximum) => `the header of a message has more than ${maximum} bytes`;

/** @type {(received: number, size: number) => string} */
export const messageIncomplete = (received, size) => `only ${received} of the ${size} bytes that Content-Length announces have arrived`;
export const HEADER_INCOMPLETE = "only a part of the header of a message has arrived";

/** @type {(size: number, maximum: number) => string} */
export const sizeTooLarge = (size, maximum) => `Content-Length: ${size} is more than a message can have (${maximum} bytes)`;

// --- server/inlay_hints.js ---
/** @type {(address: string, cycles: string) => string} */
export const hintOfInstruction = (address, cycles) => `0x${address}, ${cycles} cycle${cycles === "1" ? "" : "s"}`;
/** @type {(address: string, bytes: number) => string} */
export const hintOfData = (address, bytes) => `0x${address}, ${bytes} byte${bytes === 1 ? "" : "s"}`;

// --- server/text_kinds.js ---
/** @type {(key: string, path: string) => string} */
export const noFileMessage = (key, path) => `${key}: there is no file ${path}`;

// --- server/language_server.js ---
/** @type {(uri: string) => string} */
export const notOpenMessage = (uri) => `${uri} is not open`;
export const CONTENT_CHANGES_SYNTAX = "contentChanges must be a list";
export const TEXT_OF_CHANGE = "the text of a change";
/** @type {(uri: string, errors: string) => string} */
export const cannotCheckMessage = (uri, message) => `cannot check ${uri}: ${message}`;

// --- server/program_calls.js ---
export const PROGRAM_START = "(start of the program)";
/** @type {(count: number, noun: string) => string} */
const countOf = (count, noun) => `${count} ${noun}${count === 1 ? "" : "s"}`;
/** @type {(calls: number, otherReferences: number) => string} */
export const describeUses = (calls, otherReferences) => (
  calls === 0 ? countOf(otherReferences, "reference")
    : `${countOf(calls, "call")}${otherReferences === 0 ? "" : `, ${countOf(otherReferences, "other reference")}`}`);

// --- server/program_hover.js ---
export const INSTRUCTION_HEADINGS = ["Instruction", "Code", "Words", "Cycles", "What it does"];
/** @type {(value: number, meaning: string) => string} */
export const conditionIs = (value, meaning) => `condition ${value}: ${meaning}`;

// --- server/program_language.js ---
/** @type {(cycles: string) => string} */
export const cyclesSuffix = (cycles) => `, ${cycles} cycle${cycles === "1" ? "" : "s"}`;
/** @type {(line: number, address: string, codes: string, cycles: string) => string} */
export const describeProgramLine = (line, address, codes, cycles) => `line ${line}: address 0x${address}, ${codes}${cycles}`;
export const NO_NAME_HERE = "There is no name of the program here.";

// --- server/lsp_protocol.js ---
/** @type {(name: string) => string} */
export const mustBeTextMessage = (name) => `${name} must be a text`;
export const POSITION_SYNTAX = "a position has a line and a character, whole numbers from 0";

// --- server/requests.js ---
/** @type {(name: string) => string} */
export const mustBeListMessage = (name) => `${name} must be a list`;
/** @type {(command: string) => string} */
export const noCommandMessage = (command) => `there is no command ${command} here`;

// --- server/test_language.js ---
export const RUN_TEST = "Run test";

// --- server/test_runs.js ---
/** @type {(file: string) => string} */
export const missingDependency = (file) => `There is no ${file}, so nothing was run; mcs4.toml can name a board and a program.`;
/** @type {(name: string) => string} */
export const noTestMessage = (name) => `There is no test ${name}.`;
/** @type {(name: string) => string} */
export const testPassed = (name) => `The test ${name} passed.`;
/** @type {(name: string, line: number, message: string) => string} */
export const testFailed = (name, line, message) => `The test ${name} failed on line ${line}: ${message}.`;
/** @type {(file: string, line: number, message: string) => string} */
export const notRunMessage = (file, line, message) => `Nothing was run: ${file}${line > 0 ? `:${line}` : ""}: ${message}.`;

// --- project/project_folder.js, adapter/session_launch.js ---
export const PROJECT_FILE_IS_EMPTY = "it is empty; it should name the project's files, as in board = \"board.toml\"";
/** @type {(size: number, maximum: number) => string} */
export const tooLongMessage = (size, maximum) => `it has ${size} bytes, more than a project file can have (${maximum})`;
export const CONTAINS_NUL = "it contains NUL bytes, so it is not a text";

/** @type {(path: string) => string} */
export const linkLeadsOut = (path) => `${path} is a link that leads out of the project's folder`;

// --- project/project_toml.js ---
export const BOARD_SYNTAX = "board is the path of a file: board = \"board.toml\"";
export const PROGRAM_SYNTAX = "program is the path of a file: program = \"program.asm\"";
export const TESTS_SYNTAX = "tests is a list of paths: tests = [\"program.test\"]";
export const PROPERTIES_SYNTAX = "properties is a list of paths: properties = [\"program.props\"]";
/** @type {(names: string, last: string) => string} */
export const speedSyntax = (names, last) => `speed is one of ${names} or ${last}`;
/** @type {(key: string, syntax: string | undefined) => string} */
export const emptyPath = (key, syntax) => `${key} has an empty path; ${syntax}`;
/** @type {(key: string) => string} */
export const pathHasControlCharacter = (key) => `a path of ${key} has a control character`;
/** @type {(key: string) => string} */
export const pathHasBackslash = (key) => `a path of ${key} has a \\; separate folders with /`;
/** @type {(path: string, key: string) => string} */
export const noPathMessage = (path, key) => `${path} is not a path from the project's folder; ${key} names files in it`;
/** @type {(path: string, key: string) => string} */
export const pathLeadsOut = (path, key) => `${path} leads out of the project's folder; ${key} names files in it`;
/** @type {(name: string) => string} */
export const noKeyMessage = (name) => `a project has no key ${name}; it has board, program, tests, properties and speed`;
/** @type {(name: string, line: number) => string} */
export const keyRepeated = (name, line) => `${name} is already on line ${line}`;
export const NO_TABLES = "a project has no tables; each of its keys begins a line";
/** @type {(name: string, syntax: string | undefined) => string} */
export const keyMissing = (name, syntax) => `${name} is missing; ${syntax}`;
