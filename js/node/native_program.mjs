// Finds the native program that serves sessions for commands, and starts the engine. The engine uses this program, or the proved WebAssembly module
// if there is no program for this system. This module also has functions that many commands share, such as opening a session and reading a program.
import { existsSync } from "node:fs";
import { type } from "node:os";
import { join } from "node:path";
import { BenchRefusal } from "../core/bench/bench_errors.js";
import { MAX_TEXT_BYTES } from "./input_texts.mjs";
import { statInput } from "./user_files.mjs";
import { CommandError } from "./output.mjs";
import { loadChildProcess } from "./lazy_child_process.mjs";
import { TOP } from "./top_folder.mjs";
import {
  NO_PROGRAM_IN_COPY, sessionInUseMessage, needsNativeProgramMessage, noNamedProverMessage, noProverMessage, unsupportedSystemMessage,
  programDiffersMessage, runsOnModuleMessage, sessionRejectedMessage,
} from "../words/commands.js";

/**
 * @typedef {import("../core/engine/engine_host.js").EngineHost} EngineHost
 *
 * The result of the search for a program. `program` is its path ("" if there is none), and `reason` says why there is none. `isUnsupported`
 * is true if the program is not available for this system.
 * @typedef {{ program: string, reason: string, isUnsupported: boolean }} FoundProgram
 */

const SIGNAL_STATUSES = /** @type {const} */ ({ SIGHUP: 129, SIGINT: 130, SIGTERM: 143 });
const STARTER_SCRIPT = 'top=$0; . "$top/tools/lib/start.sh"; ';
const FIND_PROGRAM_SCRIPT = `${STARTER_SCRIPT}find_or_build >&2; printf "%s\\n%s" "$program" "$reason"`;
const FIND_PROVER_SCRIPT = `${STARTER_SCRIPT}find_prover; printf "%s\\n%s\\n" "$program" "$reason"; if is_without_program; then echo 1; fi`;

const IS_WINDOWS = process.platform === "win32";
const hasStartScript = existsSync(join(TOP, "tools/lib/start.sh"));

/**
 * Runs a script that uses the starter (tools/lib/start.sh). The script prints the path of a program, or the reason why there is none. Returns null if
 * the starter or the shell is missing.
 * @param {string} script
 * @returns {FoundProgram | null}
 */
function runStarter(script) {
  if (!hasStartScript) return null;
  const options = /** @type {const} */ ({ encoding: "utf8", stdio: ["ignore", "pipe", "inherit"] });
  const { status, stdout, error } = loadChildProcess().spawnSync("/bin/sh", ["-c", script, TOP], options);
  if (error) return null;
  if (status !== 0) process.exit(status || 1);
  const [program, reason, isUnsupported = "1"] = stdout.split("\n");
  return { program, reason, isUnsupported: program === "" && isUnsupported === "1" };
}

/** @returns {FoundProgram} the result if the starter cannot run: an editor extension does not contain it, and Windows has no shell for it */
const createNoProgramResult = () => (
  { program: "", reason: hasStartScript ? unsupportedSystemMessage(type(), process.arch) : NO_PROGRAM_IN_COPY, isUnsupported: true });

/** @type {FoundProgram | null} the cached result of the search for the program */
let foundProgram = null;

/**
 * Returns the program that the environment variable MCS4 names, or else the program that ./mcs4 starts. Builds this program if necessary.
 */
function findProgram() {
  if (process.env.MCS4) return { program: process.env.MCS4, reason: "", isUnsupported: false };
  foundProgram ||= runStarter(FIND_PROGRAM_SCRIPT) || createNoProgramResult();
  return foundProgram;
}

/** Returns the program's path. Throws an error if there is no program for this system. */
export function findProgramPath() {
  const { program, reason } = findProgram();
  if (program === "") throw new CommandError(needsNativeProgramMessage(reason));
  return program;
}

/**
 * Returns the path of the prover: the program that the environment variable MCS4_PROVE names, a local build, or the shipped program.
 * Returns "" if there is none for this system. Throws an error if the program that MCS4_PROVE names does not exist, or if no prover is
 * found on a supported system.
 */
export function findProverPath() {
  const { MCS4_PROVE: proverName } = process.env;
  if (proverName && !existsSync(proverName)) throw new CommandError(noNamedProverMessage(proverName));
  if (proverName) return proverName;
  const { program, reason, isUnsupported } = runStarter(FIND_PROVER_SCRIPT) || createNoProgramResult();
  if (program === "" && !isUnsupported) throw new CommandError(noProverMessage(reason));
  return program;
}

/** @type {import("./native_engine.mjs").NativeEngine | null} */
let nativeEngine = null;

/**
 * Starts the engine: the native program, or the proved module if there is no program for this system. Each user sees a message about the use of the
 * module once. When this process ends, it also ends the engine's processes and removes its files.
 * @returns {Promise<EngineHost>}
 */
export async function startEngine() {
  // Register the handlers first, so that a signal cannot leave the engine's folder behind.
  endOnSignals();
  const { NativeEngine } = await import("./native_engine.mjs");
  const knownEngine = process.env.MCS4 || foundProgram || !hasStartScript || IS_WINDOWS ? null : NativeEngine.forKnownProgram();
  const { program, reason } = knownEngine ? { program: knownEngine.starter.program, reason: "" } : findProgram();
  if (program === "") {
    const { startModule } = await import("./module_engine.mjs");
    return startModule(hasStartScript ? runsOnModuleMessage(reason) : "");
  }
  const engine = knownEngine || new NativeEngine(program);
  nativeEngine = engine;
  process.on("exit", endEngine);
  return engine;
}

/** Ends the native engine and removes its files. Does nothing if the engine was not started. */
export function endEngine() {
  if (nativeEngine) nativeEngine.end();
  nativeEngine = null;
}

/** @type {(status: number) => void} the function that ends the process after a signal */
let signalAction = process.exit;
let hasSignalHandlers = false;

/**
 * Registers signal handlers that end the process through `endProcess`, so that its exit handlers remove unfinished files.
 * @param {(status: number) => void} [endProcess] ends the process with an exit status
 */
export function endOnSignals(endProcess = process.exit) {
  signalAction = endProcess;
  if (hasSignalHandlers) return;
  hasSignalHandlers = true;
  for (const [signal, status] of Object.entries(SIGNAL_STATUSES)) process.on(signal, () => signalAction(status));
}

/**
 * Returns a message saying that the folder for temporary files has no room for a session. Returns "" if the folder has room, or if no native engine
 * was started.
 */
export function findRoomError() {
  return nativeEngine ? nativeEngine.roomError : "";
}

/**
 * Resolves to the state of a session file. The engine works on a copy of the file. Throws an error with the name of the file if the file
 * cannot be read or is in use, or if the engine rejects it.
 * @param {EngineHost} engine
 * @param {import("./input_texts.mjs").InputTexts} texts
 * @param {string} sessionFile the session's file name
 */
export async function openSession(engine, texts, sessionFile) {
  // A pipe without a writer would block the process forever, and signals could not end it. Also, the file is read twice, which a pipe does not allow.
  if (statInput(sessionFile)?.isFIFO()) throw new CommandError(`cannot read ${sessionFile}: it is not a regular file`);
  const bytes = texts.read(sessionFile, MAX_TEXT_BYTES);
  if (!bytes.equals(texts.read(sessionFile, MAX_TEXT_BYTES))) throw new CommandError(sessionInUseMessage(sessionFile));
  const state = engine.stateOf(bytes);
  try {
    engine.ask(state, "seq\n");
  } catch (error) {
    if (!(error instanceof BenchRefusal)) throw error;
    const { describeRefusal } = await import("./rejected_texts.mjs");
    throw new CommandError(sessionRejectedMessage(sessionFile, error.number, describeRefusal(error.number)));
  }
  return state;
}

/**
 * Resolves to the error for rejected texts. The first call loads the modules that compose the messages.
 * @param {EngineHost} engine
 * @param {import("./rejected_texts.mjs").CheckedTexts} givenTexts
 * @param {import("../core/testing/test_preparation.js").ProjectTextError[]} errors
 */
export async function createRejectedTextsError(engine, givenTexts, errors) {
  const { RejectedTexts } = await import("./rejected_texts.mjs");
  return new CommandError(new RejectedTexts(engine, givenTexts).formatMessage(errors));
}

/**
 * Resolves to the source map of a program. Throws an error if the contents of ROM are not this program.
 * @param {EngineHost} engine
 * @param {Uint8Array} codes the contents of ROM
 * @param {import("./input_texts.mjs").InputText} program
 */
export async function readCheckedMap(engine, codes, program) {
  const { compareWithRom } = await import("../core/engine/session_program.js");
  const { errors, difference, map } = compareWithRom(engine, codes, program.text);
  if (errors.length > 0) throw await createRejectedTextsError(engine, { program }, errors);
  if (!difference) return map;
  const { address, romByte, line, sourceByte } = difference;
  throw new CommandError(programDiffersMessage(program.name, address, romByte, line + program.linesBefore, sourceByte));
}

/** Lets signal handlers run between the pieces of a long computation. Resolves to true. */
export async function yieldToMessages() {
  await new Promise((resume) => {
    setImmediate(resume);
  });
  return true;
}

/**
 * Assembles a program on a board with all possible ROM chips, instead of its own board. Resolves to the program's source map, and the byte
 * at each address. Throws an error if the program has errors.
 * @param {EngineHost} engine
 * @param {import("./input_texts.mjs").InputText} program
 */
export async function assembleProgram(engine, program) {
  const { assembleSource } = await import("../core/engine/session_program.js");
  const { errors, map, bytes } = assembleSource(engine, program.text);
  if (errors.length > 0) throw await createRejectedTextsError(engine, { program }, errors);
  return { map, bytes };
}

/**
 * Reads a program, which must match the session's ROM. Resolves to a function that describes an address by its label and source line.
 * @param {import("./input_texts.mjs").InputTexts} texts
 * @param {EngineHost} engine
 * @param {string} programName
 * @param {string} session the session's file name
 * @returns {Promise<(address: number) => string>}
 */
export async function makeAddressDescriber(texts, engine, programName, session) {
  const [{ readRomCodes }, { formatSourceLocation }] = await Promise.all([
    import("../core/engine/rom_codes.js"), import("../core/machine/source_locations.js"),
  ]);
  const program = texts.readText(programName, "asm");
  const map = await readCheckedMap(engine, readRomCodes(engine, await openSession(engine, texts, session)), program);
  const source = { lines: program.text.split("\n"), linesBefore: program.linesBefore };
  return (address) => formatSourceLocation(map, source, address);
}
