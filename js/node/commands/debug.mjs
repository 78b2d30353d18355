// `mcs4 debug`: the debugger prompt of js/core/prompt, interactive at a terminal or with commands from standard input. The debugger uses the
// WebAssembly module from the page.
import { createInterface } from "node:readline";
import { Prompt } from "../../core/prompt/debugger_prompt.js";
import { launch } from "../../core/adapter/session_launch.js";
import { ErrorMessages } from "../../core/bench/error_messages.js";
import { escapeControls } from "../../core/text/control_escapes.js";
import { Engine } from "../../core/engine/engine.js";
import { checkArguments, findProject } from "../arguments.mjs";
import { host } from "../debug_host.mjs";
import { completePath, expandTilde } from "../file_names.mjs";
import { MAX_TEXT_BYTES, readDecodedFile } from "../input_texts.mjs";
import { CommandError, exitOnOutputError } from "../output.mjs";
import { readPageData, readPageModule } from "../page_parts.mjs";
import { TerminalPrompt } from "../terminal_prompt.mjs";
import { checkOutputFile, statInput, writeUserFile } from "../user_files.mjs";
import { TerminalView } from "../terminal_view.mjs";
import { BREAKPOINTS_HEADER } from "../../words/prompt.js";
import { NOT_A_BREAKPOINTS_FILE, noSessionToDebugMessage } from "../../words/commands.js";

/**
 * The file names of the board, the program and the session; a file that is not used has the name undefined.
 * @typedef {{ board?: string, program?: string, session?: string }} DebuggedNames
 */

const isInteractive = process.stdin.isTTY === true && process.stdout.isTTY === true;

/**
 * Runs commands from standard input. Resolves to the exit status, which is 1 if a command was rejected.
 * @param {Prompt} prompt
 * @param {{ line: number }} position the number of the current line, which this function updates
 */
async function runScript(prompt, position) {
  let hasRejection = false;
  for await (const line of createInterface({ input: process.stdin, crlfDelay: Infinity })) {
    position.line += 1;
    if (!(await prompt.enterLine(line))) hasRejection = true;
    if (prompt.isEnded) break;
  }
  return hasRejection ? 1 : 0;
}

/**
 * The terminal and the view of an interactive prompt. Both are null until `runInteractive` creates them.
 * @type {{ terminal: TerminalPrompt | null, view: TerminalView | null }}
 */
const screen = { terminal: null, view: null };

/** The functions with which the prompt controls the view. They forward each call, because the view is created later. */
const viewCalls = {
  toggle: () => (screen.view ? screen.view.toggle() : ""),
  setVisible: (/** @type {boolean} */ isOn) => (screen.view ? screen.view.setVisible(isOn) : ""),
};

/**
 * Runs an interactive prompt. Ctrl-L and a resize redraw the view. Resolves to the exit status.
 * @param {Prompt} prompt
 */
async function runInteractive(prompt) {
  const terminal = new TerminalPrompt(prompt, {
    output: process.stdout, onLineExecuted: () => view.draw(), onLeave: () => view.leave(), onReturn: () => view.redraw(),
  });
  const view = new TerminalView(prompt, process.stdout, process.env, () => {
    if (!prompt.machine.isMoving) terminal.show();
  });
  screen.terminal = terminal;
  screen.view = view;
  process.stdout.on("resize", () => view.redraw());
  terminal.keys.on("keypress", (_, key) => {
    if (key && key.ctrl && key.name === "l") setImmediate(() => view.redraw());
  });
  await prompt.begin();
  const status = await terminal.run();
  prompt.interrupt();
  await prompt.machine.move;
  return status;
}

/**
 * Debugs a board, a program and a session. Resolves to the exit status.
 * @param {DebuggedNames} names
 */
async function debugFiles(names) {
  const engine = await Engine.load(readPageModule());
  const pageData = readPageData();
  const launchResult = await launch(engine, { ...names, cwd: process.cwd() }, host, new ErrorMessages(pageData.refusals));
  const position = { line: 0 };
  const prompt = new Prompt(launchResult, pageData, {
    print: (message) => process.stdout.write(`${escapeControls(message)}\n`),
    printError: (message) => {
      if (screen.terminal) screen.terminal.printError(message);
      else process.stderr.write(`debug: line ${position.line}: ${escapeControls(message)}\n`);
    },
    pause: host.pause,
    read: (name) => readDecodedFile(expandTilde(name), MAX_TEXT_BYTES).text,
    write: (name, text) => {
      const file = expandTilde(name);
      checkOutputFile(file, BREAKPOINTS_HEADER, NOT_A_BREAKPOINTS_FILE, [names.board, names.program, names.session].flatMap((input) => input ?? []));
      writeUserFile(file, text);
    },
    files: completePath,
    source: () => (launchResult.program === "" ? null : host.read(launchResult.program)),
    isInteractive,
    view: isInteractive ? viewCalls : null,
  });
  try {
    if (isInteractive) return await runInteractive(prompt);
    await prompt.begin();
    return await runScript(prompt, position);
  } finally {
    if (launchResult.writer) await launchResult.writer.end();
  }
}

/**
 * Resolves to the file names from the arguments or from the project.
 * @param {string | undefined} folder
 * @param {string[]} words
 * @returns {Promise<DebuggedNames>}
 */
async function resolveNames(folder, words) {
  if (words.length > 1 && folder !== undefined) checkArguments(words, [], 1);
  const project = await findProject(folder, words, 2);
  if (project) return { board: project.board, program: project.program, session: words[0] };
  if (words.length === 0) checkArguments(words, ["BOARD", "PROGRAM"], 3, true);
  checkArguments(words, [], 3);
  const [session, board, program] = words.length === 1 ? words : [words[2], words[0], words[1]];
  if (words.length === 1 && !statInput(session)) throw new CommandError(noSessionToDebugMessage(session));
  return { board, program, session };
}

/** @type {import("./table.mjs").CommandModule["run"]} */
export async function run({ folder }, positionals) {
  checkArguments(positionals, [], 3);
  const names = await resolveNames(folder, positionals);
  exitOnOutputError("debug");
  try {
    return await debugFiles(names);
  } catch (error) {
    throw error instanceof Error ? new CommandError(error.message) : error;
  } finally {
    process.stdin.destroy();
  }
}
