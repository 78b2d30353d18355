// An engine that uses the native program to run sessions, with blocking system calls. js/core/engine/engine_host.js describes the interface.
//
// The bytes of a state are a token: the index of a node in a tree. A node stores its parent, and the commands that lead from the parent to the node.
// Each running process is at one state. When a process executes commands, it moves to another state. To reach a state without a process, the
// engine starts a process on a copy of a session file: on the nearest copy above the state in the tree. The process then executes the commands
// between the two states. The engine therefore copies a file only when it needs a state for the second time.
//
// A shell starts a program for each session, ten times as fast as Node could start it. Node and the program communicate over named pipes. All files
// are in a private folder of the user. The shell removes this folder when Node has ended, even after a signal.
import {
  closeSync, constants, copyFileSync, openSync, readFileSync, readSync, renameSync, rmSync, writeFileSync, writeSync,
} from "node:fs";
import { constants as osConstants } from "node:os";
import { join } from "node:path";
import { isQuery } from "../core/bench/answer_table.js";
import { BenchRefusal } from "../core/bench/bench_errors.js";
import { findInputEnd, isSeqQuery, opensText, stripCarriageReturn } from "../core/bench/inputs.js";
import { CommandError, systemErrorCode } from "./output.mjs";
import { loadChildProcess } from "./lazy_child_process.mjs";
import { removeFolder, createTemporaryFolder, findTemporaryRoot } from "./temporary_folders.mjs";
import { TOP } from "./top_folder.mjs";

/**
 * @typedef {import("../core/engine/engine_host.js").EngineHost} EngineHost
 * @typedef {import("../core/engine/engine_host.js").State} State
 *
 * A node of the tree of session states. `commands` lead from the parent's state to this state. `copy` is the path of a copy of its session file;
 * "" if there is none. `count` is the number of commands in the session; -1 if unknown.
 * @typedef {{ parent: number, commands: string, copy: string, count: number }} StateNode
 *
 * An analysis of session lines. `commands` contains the commands among them and the texts of these commands; it does not contain queries. `seqCount`
 * is the number of `seq` lines. `isComplete` is true if the last line and the last text are complete.
 * @typedef {{ commands: string, seqCount: number, isComplete: boolean }} LineAnalysis
 */

/** The maximum number of running processes. */
const MAX_PROCESSES = 3;
/** The maximum number of copies that the engine makes by itself, in addition to the copies that calls of `prepareForRuns` request. */
const MAX_COPIES = 32;
/** The minimum number of bytes that a pipe accepts while nobody reads from it. */
const PIPE_CAPACITY = 4096;
const BUFFER_SIZE = 1 << 16;
/** The number of bytes in a state, which is only a token: the index of a node. */
const TOKEN_SIZE = 4;
/** The size of a session file in bytes. */
export const SESSION_BYTES = 163856;
/** The maximum number of cached analyses. The engine caches them because it often serves the same lines again. */
const MAX_ANALYSES = 500;

/** An error of the program itself: it is missing, does not answer, or has ended. */
export class ProgramError extends CommandError {}

// --- lines ---

/**
 * Analyses session lines.
 * @param {string} lines
 * @returns {LineAnalysis}
 */
function analyse(lines) {
  let [commands, seqCount] = ["", 0];
  /** @type {{ isQuery: boolean } | null} the text that has not ended yet; null if there is none */
  let text = null;
  for (const rawLine of lines.replace(/\n$/, "").split("\n")) {
    const line = stripCarriageReturn(rawLine);
    /** @type {boolean} */
    const isPartOfQuery = text ? text.isQuery : isQuery(line.trim().split(/[ \t]/, 1)[0]);
    if (!isPartOfQuery && (text || line.trim() !== "")) commands += `${line}\n`;
    if (!text && isSeqQuery(line)) seqCount += 1;
    if (text && line === ".") text = null;
    else if (!text && opensText(line)) text = { isQuery: isPartOfQuery };
  }
  return { commands, seqCount, isComplete: !text && (lines === "" || lines.endsWith("\n")) };
}

/**
 * Splits lines into pieces that fit into a pipe, so that no write blocks forever. Only a piece with a single text can be longer, because
 * the program reads the complete text before it answers.
 * @param {string} lines
 */
function splitForPipe(lines) {
  if (lines.length <= PIPE_CAPACITY) return [lines];
  const pieces = [];
  let piece = "";
  for (let start = 0; start < lines.length;) {
    const end = findInputEnd(lines, start, 1);
    const input = lines.slice(start, end);
    if (piece !== "" && piece.length + input.length > PIPE_CAPACITY) {
      pieces.push(piece);
      piece = "";
    }
    piece += input;
    start = end;
  }
  return [...pieces, piece];
}

// --- processes ---

/**
 * The main loop of the shell script. Each line from the control pipe starts a program. The line consists of `new` or `open`, the name of the session
 * file, and the slot number of the pipes to use.
 */
const SHELL_LOOP = `while read -r word name slot; do
    eval "ended=\\\${pid$slot-}"
    if [ -n "$ended" ]; then wait "$ended"; fi
    "$program" "$word" "$folder/$name" < "$folder/in$slot" > "$folder/out$slot" 2>> "$folder/words" &
    eval "pid$slot=$!"
done < "$folder/control"
if [ -e "$folder" ]; then rm -rf -- "$folder"; fi`;

/** The name of the shell. Its messages start with this name. */
const SHELL_NAME = "starter";
/** The exit status of the shell if no program is given and start.sh does not know one. */
const UNKNOWN_PROGRAM_STATUS = 3;
/**
 * The shell script. The script finds the program if none is given, creates the pipes, starts the loop, and prints the path of the program.
 */
const SHELL_SCRIPT = `trap "" HUP INT TERM
program=$1 top=$2 folder=$3
shift 3
if [ -z "$program" ]; then
    . "$top/tools/lib/start.sh"
    find_known || exit ${UNKNOWN_PROGRAM_STATUS}
fi
mkfifo -- "$@" || exit 1
{ ${SHELL_LOOP}
} > /dev/null 2>> "$folder/words" &
printf %s "$program"`;

/** The shell that starts the programs, and its folder. */
class Starter {
  /**
   * @param {string} program the program's path; "" for the program that ./mcs4 starts, if start.sh can find it without comparing sources
   */
  constructor(program) {
    this.root = findTemporaryRoot();
    this.folder = createTemporaryFolder("mcs4");
    this.freeSlots = [...Array(MAX_PROCESSES + 1).keys()];
    const pipes = ["control", ...this.freeSlots.flatMap((slot) => [`in${slot}`, `out${slot}`])].map((name) => join(this.folder, name));
    const { status, signal, stdout } = loadChildProcess().spawnSync(
      "/bin/sh", ["-c", SHELL_SCRIPT, SHELL_NAME, program, TOP, this.folder, ...pipes], { encoding: "utf8", stdio: ["ignore", "pipe", "ignore"] });
    // A signal to the process group, such as Ctrl-C, can end the shell before the shell ignores signals. This process has received the same signal,
    // so end it in the same way.
    if (signal) {
      removeFolder(this.folder);
      process.exit(128 + osConstants.signals[signal]);
    }
    this.program = stdout;
    /** The file descriptor of the control pipe; -1 if the shell does not know a program. */
    this.controlPipe = -1;
    if (status === UNKNOWN_PROGRAM_STATUS) removeFolder(this.folder);
    else if (status !== 0) throw new ProgramError(`cannot make pipes in ${this.folder}; set TMPDIR to another folder for temporary files`);
    else this.controlPipe = openSync(join(this.folder, "control"), "w");
  }

  /**
   * Starts a program on a session file. Returns the slot number of its pipes, and the open pipes. Throws an error if all pipes are in use.
   * @param {"new" | "open"} word
   * @param {string} name
   */
  start(word, name) {
    const slot = this.freeSlots.pop();
    if (slot === undefined) throw new Error("all pipes are in use");
    writeSync(this.controlPipe, `${word} ${name} ${slot}\n`);
    return { slot, input: openSync(join(this.folder, `in${slot}`), "w"), output: openSync(join(this.folder, `out${slot}`), "r") };
  }

  /** The lines that the programs wrote to standard error, without the shell's messages and without lines that name this folder. */
  get errorLines() {
    const lines = readFileSync(join(this.folder, "words"), "latin1").split("\n");
    return lines.filter((line) => line !== "" && !line.startsWith(`${SHELL_NAME}: `) && !line.includes(this.folder));
  }

  /** Removes the folder and ends the shell. */
  end() {
    removeFolder(this.folder);
    closeSync(this.controlPipe);
  }
}

/** A running program that serves a session file. */
class Session {
  /**
   * @param {Starter} starter
   * @param {"new" | "open"} word
   * @param {string} name the name of the file in the starter's folder
   */
  constructor(starter, word, name) {
    this.starter = starter;
    this.name = name;
    this.file = join(starter.folder, name);
    /** The index of the session's state; -1 if unknown. */
    this.stateIndex = -1;
    this.buffer = Buffer.allocUnsafe(BUFFER_SIZE);
    const { slot, input, output } = starter.start(word, name);
    this.slot = slot;
    this.input = input;
    this.output = output;
    this.hasEnded = false;
    this.count = this.readOpening();
  }

  /** Reads the first answer line. Returns the number of commands in the session. Throws an error if the session could not be opened. */
  readOpening() {
    const line = this.readUntil((text) => text.endsWith("\n")).trimEnd();
    if (this.hasEnded || !/^session \d+$/.test(line)) {
      this.end();
      const [, number] = /^no (\d+)$/.exec(line) || [];
      throw number ? new BenchRefusal(Number(number)) : this.makeNoAnswerError();
    }
    return Number(line.slice("session ".length));
  }

  /** Returns the error for an executable that cannot be the native program, because its output does not begin with an answer. */
  makeNoAnswerError() {
    const { program, errorLines } = this.starter;
    const message = `${program} does not answer; set MCS4 to the path of the program if it is not the mcs4 at the top`;
    return new ProgramError([...errorLines, message].join("\n"));
  }

  /** Returns the error for a program that has ended before it answered. */
  makeEndedError() {
    return new ProgramError(`the session has ended; the program said: ${this.starter.errorLines.join("; ") || "nothing"}`);
  }

  /**
   * Reads answers until they are complete or the program has ended.
   * @param {(text: string) => boolean} isComplete returns true if the answers so far are complete
   */
  readUntil(isComplete) {
    let text = "";
    do {
      const count = readSync(this.output, this.buffer);
      if (count === 0) this.hasEnded = true;
      text += this.buffer.latin1Slice(0, count);
    } while (!this.hasEnded && !isComplete(text));
    return text;
  }

  /**
   * Sends lines to the program. Returns the answer lines. Sends a `seq` line after the lines, because its answer marks the end of the answers. If the
   * lines themselves contain `seq`, counts the answers to `seq`.
   * @param {string} lines
   */
  exchange(lines) {
    /** @type {string[]} */
    let answers = [];
    for (const piece of splitForPipe(lines)) {
      const { seqCount } = analyse(piece);
      const text = this.send(`${piece}seq\n`, (output) => (
        /(?:^|\n)seq \d+\n$/.test(output.slice(-30)) && (seqCount === 0 || (output.match(/^seq \d+$/gm) || []).length > seqCount)));
      if (this.hasEnded) throw this.makeEndedError();
      const outputLines = text.split("\n");
      this.count = Number(outputLines[outputLines.length - 2].slice("seq ".length));
      outputLines.length -= 2;
      answers = answers.length === 0 ? outputLines : answers.concat(outputLines);
    }
    return answers;
  }

  /**
   * Sends lines that end without a line feed or within a text, and ends the session. Returns the answer lines.
   * @param {string} lines
   */
  exchangeIncomplete(lines) {
    const pieces = splitForPipe(lines);
    const answers = this.exchange(pieces.slice(0, -1).join(""));
    writeSync(this.input, pieces[pieces.length - 1]);
    closeSync(this.input);
    const text = this.readUntil(() => false);
    this.close(this.output);
    return [...answers, ...text.split("\n").slice(0, -1)];
  }

  /**
   * Sends lines to the program. Returns the text of the answers. If the program has ended, returns its remaining output.
   * @param {string} lines
   * @param {(text: string) => boolean} isComplete returns true if the answers so far are complete
   */
  send(lines, isComplete) {
    try {
      writeSync(this.input, lines);
    } catch (error) {
      if (systemErrorCode(error) !== "EPIPE") throw error;
    }
    return this.readUntil(isComplete);
  }

  /** Empties the input pipe of a program that has ended early, so that the next program with this pipe does not read the remaining lines. */
  emptyInput() {
    const pipe = openSync(join(this.starter.folder, `in${this.slot}`), constants.O_RDONLY | constants.O_NONBLOCK);
    try {
      while (readSync(pipe, this.buffer) > 0) continue;
    } catch (error) {
      if (systemErrorCode(error) !== "EAGAIN") throw error;
    } finally {
      closeSync(pipe);
    }
  }

  /** Closes the input so that the program ends, and waits until it has ended. */
  end() {
    if (this.hasEnded) this.emptyInput();
    closeSync(this.input);
    while (!this.hasEnded && readSync(this.output, this.buffer) > 0) continue;
    this.close(this.output);
  }

  /**
   * Closes the last open pipe and releases the slot of the pipes.
   * @param {number} pipe
   */
  close(pipe) {
    closeSync(pipe);
    this.starter.freeSlots.push(this.slot);
  }
}

// --- states ---

/**
 * The engine that uses native programs.
 * @implements {EngineHost}
 */
export class NativeEngine {
  /** @param {string} program the program's path */
  constructor(program, starter = new Starter(program)) {
    this.size = TOKEN_SIZE;
    this.starter = starter;
    /** @type {StateNode[]} the tree; node 0 is a new session */
    this.states = [{ parent: -1, commands: "", copy: "", count: 0 }];
    /** @type {Session[]} the running sessions, most recently used first */
    this.sessions = [];
    /** @type {number[]} the states that the engine has copied by itself, oldest copy first */
    this.automaticCopies = [];
    this.fileCount = 0;
    /** @type {Map<string, LineAnalysis>} */
    this.analyses = new Map();
  }

  /** Returns an engine for the program that ./mcs4 starts; null if start.sh cannot find that program without comparing all sources. */
  static forKnownProgram() {
    const starter = new Starter("");
    return starter.controlPipe < 0 ? null : new NativeEngine(starter.program, starter);
  }

  // --- the interface EngineHost ---

  /** @param {State} [into] */
  begin(into = new Uint8Array(this.size)) {
    return this.writeIndex(into, 0);
  }

  /**
   * @param {State} state
   * @param {string} lines
   * @param {State} into
   */
  serve(state, lines, into) {
    const stateIndex = this.readIndex(state);
    const { commands, isComplete } = this.analyse(lines);
    if (!isComplete) return this.serveIncomplete(stateIndex, lines, into);
    const session = this.sessionAt(stateIndex);
    const openingAnswer = `session ${session.count}`;
    const answers = this.exchange(session, lines);
    if (commands !== "") session.stateIndex = this.addState({ parent: stateIndex, commands, copy: "", count: session.count });
    this.writeIndex(into, session.stateIndex);
    return { status: 0, openingAnswer, answers };
  }

  /**
   * @param {State} state
   * @param {string} lines
   */
  ask(state, lines) {
    const stateIndex = this.readIndex(state);
    const { commands, isComplete } = this.analyse(lines);
    if (commands === "" && isComplete) {
      const session = this.sessionAt(stateIndex);
      return { status: 0, openingAnswer: `session ${session.count}`, answers: this.exchange(session, lines) };
    }
    const session = this.startSession(stateIndex);
    const openingAnswer = `session ${session.count}`;
    const answers = isComplete ? this.exchange(session, lines) : session.exchangeIncomplete(lines);
    this.drop(session, isComplete);
    return { status: 0, openingAnswer, answers };
  }

  /** @param {State} state */
  prepareForRuns(state) {
    const stateIndex = this.readIndex(state);
    const { file } = this.sessionAt(stateIndex);
    this.automaticCopies = this.automaticCopies.filter((index) => index !== stateIndex);
    if (this.states[stateIndex].copy === "") this.copy(stateIndex, file);
  }

  /** @param {State} state */
  bytesOf(state) {
    const stateIndex = this.readIndex(state);
    return new Uint8Array(readFileSync(this.states[stateIndex].copy || this.sessionAt(stateIndex).file));
  }

  /** @param {Uint8Array} bytes */
  stateOf(bytes) {
    const copy = this.makeFilePath();
    writeFileSync(copy, bytes);
    return this.writeIndex(new Uint8Array(this.size), this.addState({ parent: -1, commands: "", copy, count: -1 }));
  }

  /** A message saying that the folder for temporary files has no room for a session; "" if the folder has room. */
  get roomError() {
    const { folder, root } = this.starter;
    const probePath = join(folder, "room");
    try {
      writeFileSync(probePath, new Uint8Array(SESSION_BYTES));
      return "";
    } catch {
      return `${root} has no room for temporary files; make some, or name another place: TMPDIR`;
    } finally {
      rmSync(probePath, { force: true });
    }
  }

  /** Ends all programs and removes all files. */
  end() {
    for (const session of this.sessions.splice(0)) session.end();
    this.starter.end();
  }

  // --- reaching a state ---

  /**
   * Returns the index of a state's node. Throws an error if the bytes are not a state of this engine.
   * @param {State} state
   */
  readIndex(state) {
    const stateIndex = new DataView(state.buffer, state.byteOffset).getUint32(0);
    if (state.length !== this.size || stateIndex >= this.states.length) throw new Error("these bytes are not a state of this engine");
    return stateIndex;
  }

  /**
   * Writes a node's index into a state. Returns the state.
   * @param {State} state
   * @param {number} stateIndex
   */
  writeIndex(state, stateIndex) {
    new DataView(state.buffer, state.byteOffset).setUint32(0, stateIndex);
    return state;
  }

  /**
   * Adds a node to the tree. Returns its index.
   * @param {StateNode} state
   */
  addState(state) {
    return this.states.push(state) - 1;
  }

  /**
   * Analyses session lines. Caches the result.
   * @param {string} lines
   */
  analyse(lines) {
    const cachedAnalysis = this.analyses.get(lines);
    if (cachedAnalysis) return cachedAnalysis;
    if (this.analyses.size === MAX_ANALYSES) this.analyses.clear();
    const analysis = analyse(lines);
    this.analyses.set(lines, analysis);
    return analysis;
  }

  /**
   * Sends lines to a session. Returns the answer lines. Drops the session if this fails.
   * @param {Session} session
   * @param {string} lines
   */
  exchange(session, lines) {
    try {
      return session.exchange(lines);
    } catch (error) {
      this.drop(session, true);
      throw error;
    }
  }

  /**
   * Executes lines that end without a line feed or within a text. The new state is a copy of the session file.
   * @param {number} stateIndex
   * @param {string} lines
   * @param {State} into
   */
  serveIncomplete(stateIndex, lines, into) {
    const session = this.startSession(stateIndex);
    const openingAnswer = `session ${session.count}`;
    const answers = session.exchangeIncomplete(lines);
    const copy = this.makeFilePath();
    renameSync(session.file, copy);
    this.drop(session, false);
    this.writeIndex(into, this.addState({ parent: -1, commands: "", copy, count: -1 }));
    return { status: 0, openingAnswer, answers };
  }

  /**
   * Returns a session at a state, and moves it to the front of the list of sessions. Starts a new session if there is none.
   * @param {number} stateIndex
   */
  sessionAt(stateIndex) {
    const index = this.sessions.findIndex((session) => session.stateIndex === stateIndex);
    if (index < 0) return this.startSession(stateIndex);
    if (index > 0) this.sessions.unshift(...this.sessions.splice(index, 1));
    return this.sessions[0];
  }

  /**
   * Starts a session and brings it to a state. Returns the session.
   * @param {number} stateIndex
   */
  startSession(stateIndex) {
    const { lines, copy } = this.collectCommands(stateIndex);
    const file = this.makeFilePath();
    if (copy !== "") copyFileSync(copy, file);
    const session = new Session(this.starter, copy === "" ? "new" : "open", file.slice(this.starter.folder.length + 1));
    this.sessions.unshift(session);
    if (this.sessions.length > MAX_PROCESSES) this.drop(this.sessions[MAX_PROCESSES], true);
    if (lines !== "") {
      this.exchange(session, lines);
      this.storeCopy(stateIndex, session.file);
    }
    session.stateIndex = stateIndex;
    return session;
  }

  /**
   * Finds the nearest copy at a state or above it in the tree. Returns its path ("" for a new session), and the commands that lead from this copy to
   * the state.
   * @param {number} stateIndex
   */
  collectCommands(stateIndex) {
    const commands = [];
    let ancestorIndex = stateIndex;
    for (; ancestorIndex > 0 && this.states[ancestorIndex].copy === ""; ancestorIndex = this.states[ancestorIndex].parent) {
      commands.push(this.states[ancestorIndex].commands);
    }
    return { lines: commands.reverse().join(""), copy: this.states[ancestorIndex].copy };
  }

  /**
   * Stores a copy of a state that the engine had to rebuild, so that the engine need not rebuild the state again. Keeps only the last
   * MAX_COPIES copies.
   * @param {number} stateIndex
   * @param {string} file
   */
  storeCopy(stateIndex, file) {
    this.copy(stateIndex, file);
    this.automaticCopies.push(stateIndex);
    if (this.automaticCopies.length <= MAX_COPIES) return;
    const oldestNode = this.states[/** @type {number} */ (this.automaticCopies.shift())];
    rmSync(oldestNode.copy, { force: true });
    oldestNode.copy = "";
  }

  /**
   * Copies a session file for a state.
   * @param {number} stateIndex
   * @param {string} file
   */
  copy(stateIndex, file) {
    const copy = this.makeFilePath();
    copyFileSync(file, copy);
    this.states[stateIndex].copy = copy;
  }

  /** Returns an unused path for a session file. */
  makeFilePath() {
    this.fileCount += 1;
    return join(this.starter.folder, `${this.fileCount}.mcs`);
  }

  /**
   * Removes a session and its file.
   * @param {Session} session
   * @param {boolean} isOpen true if the session's pipes are still open
   */
  drop(session, isOpen) {
    this.sessions = this.sessions.filter((openSession) => openSession !== session);
    if (isOpen) session.end();
    rmSync(session.file, { force: true });
  }
}
