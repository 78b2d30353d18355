// Creates the session for `launch` and `attach`. `launch` creates a session in memory from a board file and a program file, or opens or
// creates a session file. `attach` opens an existing session file. Unless `write` is true, the session is a copy, and the file does not
// change.

import { parseRefusal } from "../bench/answers.js";
import { BenchRefusal } from "../bench/bench_errors.js";
import { hex } from "../bench/numbers.js";
import { DebugSession } from "../debug/debug_session.js";
import { PROJECT_FILE, readProjectToml } from "../project/project_toml.js";
import { getField } from "../server/framing.js";
import { fileUri, uriFileName, createTestSession, findTestFiles } from "./test_launch.js";
import { findBoard } from "../server/text_kinds.js";
import { findSendingErrors, sentText } from "../text/sendable_text.js";
import { assembleText, findDifference } from "../engine/program_check.js";
import { disassembleRom } from "../engine/text_recovery.js";
import { SessionWriter } from "./session_writer.js";
import { AdapterError, optionalFlag, optionalText } from "./dap_protocol.js";
import * as say from "../../words/adapter.js";
import { linkLeadsOut } from "../../words/server.js";

/**
 * @typedef {import("../bench/answers.js").Refusal} Refusal
 * @typedef {import("../engine/engine_host.js").EngineHost} Engine
 * @typedef {import("../bench/error_messages.js").ErrorMessages} ErrorMessages
 * @typedef {import("./session_writer.js").OpenFile} OpenFile
 *
 * The result of a launch or attach. `writer` is null if the session is not saved to a file. `program` and `board` are file names. `program`
 * is "" if the source was disassembled from ROM. `isDebugged` is false if the client asked for a run without debugging. `args` are the
 * arguments of the request. `nameOf` returns the absolute name of a file. `test` is the debugged test, null for none. `note` is the result
 * of this test, "" for none.
 * @typedef {{ session: DebugSession, writer: SessionWriter | null, program: string, board: string, stopsOnEntry: boolean,
 *   isDebugged: boolean, isRealTime: boolean, isAttached: boolean, args: any, nameOf: (name: string) => string, test: TestFiles | null,
 *   note: string }} LaunchResult
 *
 * @typedef {import("./test_launch.js").TestFiles} TestFiles
 *
 * The files that a launch or attach uses. `board`, `program` and `session` are absolute file names, "" for none. `load` is true if the
 * program must be written to the ROM of a session file. `test` contains the files of the debugged test, null for none.
 * @typedef {{ board: string, program: string, session: string, load: boolean, test: TestFiles | null }} RequestedFiles
 */

/**
 * The functions that the program around the adapter supplies: access to files, and a pause.
 * @typedef {object} Host
 * @property {(name: string, folder: string) => string} nameOf Returns the absolute name of a file from its name relative to `folder`.
 * @property {(name: string, baseFile: string) => string} resolveFrom Returns the absolute name of a file from its name relative to the
 *   folder that contains `baseFile`.
 * @property {(name: string) => string | null} read Returns the text of a file; null if the file cannot be read.
 * @property {(name: string) => string} readErrorMessage Returns the reason why a file cannot be read, as a message.
 * @property {(name: string) => boolean} fileExists Returns whether a file exists.
 * @property {(name: string, folder: string) => boolean} isInside Returns whether a file is in a folder, after symbolic links are resolved.
 * @property {(name: string) => Promise<OpenFile>} open Starts a program that opens a session file. Resolves to the open file.
 * @property {(name: string) => Promise<OpenFile>} create Starts a program that creates a session file. Resolves to the open file.
 * @property {(name: string) => Promise<Uint8Array>} readSession Resolves to the bytes of a session file. Rejects if another program has the
 * file open.
 * @property {() => Promise<void>} pause Yields to the event loop.
 */

/** @param {string} name */
const baseName = (name) => name.replace(/^.*[\\/]/, "");

/**
 * Returns the files that the arguments of a request name. A missing name comes from the named project, or from the project or folder of the
 * program. Throws AdapterError if the arguments are invalid.
 * @param {any} args
 * @param {Host} host
 * @returns {RequestedFiles}
 */
export function readRequestedFiles(args, host) {
  const folder = optionalText(args, "cwd");
  const test = optionalText(args, "test");
  if (test !== "") {
    const file = optionalText(args, "tests");
    if (file === "") throw new AdapterError(say.TEST_NEEDS_TESTS, true);
    const testFiles = findTestFiles(test, host.nameOf(file, folder), host.read);
    return { board: testFiles.board, program: testFiles.program, session: "", load: false, test: testFiles };
  }
  const names = ["project", "board", "program", "session"].map((field) => optionalText(args, field));
  const [project, namedBoard, namedProgram, session] = names.map((name) => (name === "" ? "" : host.nameOf(name, folder)));
  const projectNames = project === "" ? { board: "", program: "" } : findProjectFiles(project, host);
  const program = namedProgram || projectNames.program;
  if (program === "" && session === "") {
    const message = say.LAUNCH_SYNTAX;
    throw new AdapterError(say.boardHint(message), true);
  }
  if (program !== "" && session === program) throw new AdapterError(say.FILE_NAMED_TWICE, true);
  const boardFile = program === "" ? "" : findBoardFile(program, host);
  const board = namedBoard || projectNames.board || (host.fileExists(boardFile) ? boardFile : "");
  return { board, program, session, load: optionalFlag(args, "load", false), test: null };
}

/**
 * Returns the names of a project's board and program files. Throws AdapterError if the project file is invalid or cannot be read.
 * @param {string} name the name of the project folder or the project file
 * @param {Host} host
 */
function findProjectFiles(name, host) {
  const file = baseName(name) === PROJECT_FILE ? name : host.nameOf(PROJECT_FILE, name);
  const text = host.read(file);
  if (text === null) throw new AdapterError(say.noProjectFileMessage(file), true);
  const { names, errors: [error] } = readProjectToml(text);
  if (!names) throw new AdapterError(`${file}, line ${error.line}: ${error.words}`, true);
  const [board, program] = [names.board, names.program].map(({ path, key, line }) => {
    const fullName = host.resolveFrom(path, file);
    const folder = host.resolveFrom(".", file);
    if (!host.isInside(fullName, folder)) throw new AdapterError(`${file}, line ${line}: ${key}: ${linkLeadsOut(path)}`, true);
    return fullName;
  });
  return { board, program };
}

/**
 * Returns the name of the board file of a program. The language server finds a board by the same rule. Throws AdapterError if the file is a
 * link that leads out of the project's folder.
 * @param {string} program the file name of the program
 * @param {Host} host
 */
function findBoardFile(program, host) {
  const { uri, folder } = findBoard(fileUri(program), (candidateUri) => host.read(uriFileName(candidateUri)));
  const board = uriFileName(uri);
  if (folder !== "" && !host.isInside(board, uriFileName(folder))) throw new AdapterError(linkLeadsOut(board), true);
  return board;
}

/**
 * Returns the text of a file, with a line feed at each line end. Throws AdapterError if the file cannot be read or a line cannot be sent
 * to the bench.
 * @param {string} name
 * @param {";" | "#"} mark the character that starts a comment
 * @param {Host} host
 */
function readBenchText(name, mark, host) {
  const text = host.read(name);
  if (text === null) throw new AdapterError(host.readErrorMessage(name), true);
  const normalizedText = text.replace(/^\uFEFF/, "").replace(/\r\n?/g, "\n");
  const [error] = findSendingErrors(normalizedText, mark);
  if (error) throw new AdapterError(`${baseName(name)}, line ${error.line}: ${error.words}`, true);
  return normalizedText;
}

/**
 * Returns the AdapterError for a file that the bench has rejected.
 * @param {string} name the file name
 * @param {Refusal} refusal
 * @param {ErrorMessages} messages
 */
function refusalError(name, { number, line }, messages) {
  const lineSuffix = line > 0 ? `, line ${line}` : "";
  const reason = number > 0 ? `${messages.refusalMeaning(number)} (no ${number})` : say.DOT_ALONE;
  return new AdapterError(`${baseName(name)}${lineSuffix}: ${reason}`, true);
}

/**
 * Creates a session in memory from a board file and a program file. Throws AdapterError if there is no board file, or if a file cannot be
 * read or its text is rejected.
 * @param {Engine} engine
 * @param {RequestedFiles} requestedFiles
 * @param {Host} host
 * @param {ErrorMessages} messages
 */
function createSessionFromTexts(engine, requestedFiles, host, messages) {
  if (requestedFiles.board === "") {
    throw new AdapterError(say.noBoardBesideMessage(requestedFiles.program), true);
  }
  const [board, program] = [readBenchText(requestedFiles.board, "#", host), readBenchText(requestedFiles.program, ";", host)];
  const session = new DebugSession(engine, { board, program });
  for (const { word, refusal } of session.rejectedTexts) {
    throw refusalError(word === "wire" ? requestedFiles.board : requestedFiles.program, refusal, messages);
  }
  return session;
}

/**
 * Runs a test. Resolves to a session at the failure or at the end of the test, and to the test result.
 * @param {Engine} engine
 * @param {TestFiles} test
 * @param {Host} host
 */
async function createSessionFromTest(engine, test, host) {
  const sources = test.tests.map((name) => ({ name, text: host.read(name) || "" }));
  const texts = { boardText: readBenchText(test.board, "#", host), programText: readBenchText(test.program, ";", host), sources };
  const { session, result } = await createTestSession(engine, texts, test, host.pause);
  return { session, writer: null, note: result };
}

/**
 * Opens or creates a session file. Resolves to the session and its writer. Rejects if a text for a new file is missing, if a text has
 * errors, or if a program that is not loaded differs from ROM.
 * @param {Engine} engine
 * @param {RequestedFiles} requestedFiles
 * @param {Host} host
 * @param {ErrorMessages} messages
 */
async function openSessionFile(engine, requestedFiles, host, messages) {
  const board = requestedFiles.board === "" ? "" : readBenchText(requestedFiles.board, "#", host);
  const program = requestedFiles.program === "" ? "" : readBenchText(requestedFiles.program, ";", host);
  const isNew = !host.fileExists(requestedFiles.session);
  if (isNew && (board === "" || program === "")) {
    throw new AdapterError(say.sessionMissing(requestedFiles.session), true);
  }
  // A session in memory reports errors in the board and program texts before the file is created.
  if (isNew) createSessionFromTexts(engine, requestedFiles, host, messages);
  const file = await (isNew ? host.create(requestedFiles.session) : host.open(requestedFiles.session));
  try {
    const session = new DebugSession(engine, { file: file.bytes, board, program: program || disassembleRom(engine, file.bytes) });
    const writer = new SessionWriter(file, session.debugger.session);
    if (isNew) await serveText(session, "wire", sentText(board, "#"), requestedFiles.board, messages);
    if (isNew || requestedFiles.load) await serveText(session, "asm", sentText(program, ";"), requestedFiles.program, messages);
    else if (program !== "") checkProgramMatchesRom(session, engine, requestedFiles, messages);
    await writer.write(session.debugger.session);
    return { session, writer, note: "" };
  } catch (thrown) {
    await file.end();
    throw thrown;
  }
}

/**
 * Loads a copy of a session file into memory. Resolves to the session. Rejects if the program has errors, or if a program that is not
 * loaded differs from ROM.
 * @param {Engine} engine
 * @param {RequestedFiles} requestedFiles
 * @param {Host} host
 * @param {ErrorMessages} messages
 */
async function loadSessionCopy(engine, requestedFiles, host, messages) {
  const board = requestedFiles.board === "" ? "" : readBenchText(requestedFiles.board, "#", host);
  const program = requestedFiles.program === "" ? "" : readBenchText(requestedFiles.program, ";", host);
  const file = await host.readSession(requestedFiles.session);
  try {
    const session = new DebugSession(engine, { file, board, program: program || disassembleRom(engine, file) });
    if (requestedFiles.load && program !== "") await serveText(session, "asm", sentText(program, ";"), requestedFiles.program, messages);
    else if (program !== "") checkProgramMatchesRom(session, engine, requestedFiles, messages);
    return { session, writer: null, note: "" };
  } catch (thrown) {
    throw thrown instanceof BenchRefusal ? refusalError(requestedFiles.session, { number: thrown.number, line: 0 }, messages) : thrown;
  }
}

/**
 * Sends a board or a program to a session; throws AdapterError if the bench rejects the text.
 * @param {DebugSession} session
 * @param {"wire" | "asm"} word the bench command for the text
 * @param {string} text
 * @param {string} name the file name of the text
 * @param {ErrorMessages} messages
 */
async function serveText(session, word, text, name, messages) {
  const { firstAnswer } = await session.debugger.session.serve(`${word}\n${text}.\n`, async () => true);
  const refusal = parseRefusal(firstAnswer);
  if (refusal) throw refusalError(name, refusal, messages);
}

/**
 * Describes the difference between ROM and the program; returns "" if the bytes are equal.
 * @param {DebugSession} session
 */
export function describeDifference(session) {
  const { engine, file, statusQueries } = session.debugger.session;
  const { refusal, ...program } = assembleText(engine, sentText(session.program, ";"));
  if (refusal) return say.PROGRAM_HAS_ERRORS;
  const difference = findDifference(engine, file, statusQueries.board, { refusal, ...program });
  return difference ? say.romDiffers(difference.hasRom, hex(difference.address, 3)) : "";
}

/**
 * Throws AdapterError if the program has errors or differs from the contents of ROM.
 * @param {DebugSession} session
 * @param {Engine} engine
 * @param {RequestedFiles} requestedFiles
 * @param {ErrorMessages} messages
 */
function checkProgramMatchesRom(session, engine, { program, session: file }, messages) {
  const { refusal } = assembleText(engine, sentText(session.program, ";"));
  if (refusal) throw refusalError(program, refusal, messages);
  const differenceText = describeDifference(session);
  if (differenceText === "") return;
  const message = say.differsFromRomMessage(baseName(program), baseName(file), differenceText);
  throw new AdapterError(say.loadHint(message), true);
}

/**
 * Creates the session for a `launch`: from a test, from board and program texts, or from a session file.
 * @param {Engine} engine
 * @param {any} args
 * @param {Host} host
 * @param {ErrorMessages} messages
 * @returns {Promise<LaunchResult>}
 */
export async function launch(engine, args, host, messages) {
  const requestedFiles = readRequestedFiles(args, host);
  const openedSession = requestedFiles.test ? await createSessionFromTest(engine, requestedFiles.test, host)
    : requestedFiles.session === "" ? { session: createSessionFromTexts(engine, requestedFiles, host, messages), writer: null, note: "" }
      : await openSessionFile(engine, requestedFiles, host, messages);
  return createLaunchResult(openedSession, requestedFiles, args, host);
}

/**
 * Creates the session for an `attach` to an existing session file. Rejects if the request names no such file. Unless `write` is true, the
 * session is a copy, and the file does not change.
 * @param {Engine} engine
 * @param {any} args
 * @param {Host} host
 * @param {ErrorMessages} messages
 * @returns {Promise<LaunchResult>}
 */
export async function attach(engine, args, host, messages) {
  if (optionalText(args, "session") === "") throw new AdapterError(say.ATTACH_SYNTAX, true);
  const savesToFile = optionalFlag(args, "write", false);
  const requestedFiles = readRequestedFiles(args, host);
  if (!host.fileExists(requestedFiles.session)) throw new AdapterError(say.noSessionMessage(requestedFiles.session), true);
  const loadSession = savesToFile ? openSessionFile : loadSessionCopy;
  const openedSession = await loadSession(engine, requestedFiles, host, messages);
  return { ...createLaunchResult(openedSession, requestedFiles, args, host), isAttached: true };
}

/**
 * Combines a session with the options of the launch or attach request.
 * @param {{ session: DebugSession, writer: SessionWriter | null, note: string }} openedSession
 * @param {RequestedFiles} requestedFiles
 * @param {any} args
 * @param {Host} host
 * @returns {LaunchResult}
 */
function createLaunchResult({ session, writer, note }, { program, board, test }, args, host) {
  if (session.boardText === "") session.boardText = session.debugger.session.ask("board\n").slice(1).join("\n");
  session.debugger.commonMistakes.map = session.map;
  return {
    session, writer, test, note, program, board, stopsOnEntry: optionalFlag(args, "stopOnEntry", true),
    isDebugged: getField(args, "noDebug") !== true,
    isRealTime: optionalFlag(args, "realTime", false), isAttached: false, args,
    nameOf: (name) => host.nameOf(name, optionalText(args, "cwd")),
  };
}
