// Runs `mcs4 new` and `mcs4 open` at a terminal. The native program executes the lines. The answers go to standard output as they arrive. The prompt
// and all messages go to standard error.
import { joinLines } from "../core/bench/inputs.js";
import { SessionPrompt } from "../core/prompt/bench_prompt.js";
import { GREETING } from "../words/session_prompt.js";
import { completePath, expandTilde } from "./file_names.mjs";
import { MAX_SCRIPT_BYTES, readDecodedFile } from "./input_texts.mjs";
import { print } from "./output.mjs";
import { readPageData } from "./page_parts.mjs";
import { describeRefusal } from "./rejected_texts.mjs";
import { ProgramEndedError, SessionProcess } from "./session_process.mjs";
import { TerminalPrompt } from "./terminal_prompt.mjs";

/**
 * Returns the callbacks of the prompt for a program and a terminal.
 * @param {SessionProcess} program
 * @param {{ print: (message: string) => void, printError: (message: string) => void }} terminal
 * @returns {import("../core/prompt/bench_prompt.js").SessionPromptCallbacks}
 */
function makePromptCalls(program, terminal) {
  /** @type {import("./page_parts.mjs").PageData | null} */
  let pageData = null;
  const getManual = () => {
    if (!pageData) pageData = readPageData();
    return pageData.manual;
  };
  return {
    serve: async (input) => {
      let firstLine = "";
      await program.serve(input, (line) => {
        if (firstLine === "") firstLine = line;
        print(`${line}\n`);
      });
      return firstLine;
    },
    ask: async (line) => {
      /** @type {string[]} */
      const lines = [];
      await program.serve(`${line}\n`, (answerLine) => lines.push(answerLine));
      return lines;
    },
    print: (message) => terminal.print(message),
    printError: (message) => terminal.printError(message),
    read: (name) => readDecodedFile(expandTilde(name), MAX_SCRIPT_BYTES).text,
    files: completePath,
    findErrors: async (word, text, board) => {
      const { findTextErrors } = await import("./text_errors.mjs");
      return findTextErrors(word, text, board, { manual: getManual(), wordsOf: describeRefusal });
    },
    messageOf: describeRefusal,
    manual: getManual,
  };
}

/**
 * Ends the program: sends it the rest of the input, waits for its end, and prints its last answers.
 * @param {SessionProcess} program
 * @param {string} unservedInput
 */
async function endProgram(program, unservedInput) {
  program.child.stdin.write(unservedInput);
  await program.end();
  print(joinLines(program.lines));
}

/**
 * Executes the lines that the user types at a terminal. Resolves to the exit status.
 * @param {"new" | "open"} word
 * @param {string} name the session's file name
 */
export async function servePrompt(word, name) {
  const program = new SessionProcess(word, name, true);
  let signalStatus = 0;
  let unservedInput = "";
  try {
    const [firstLine] = await program.readLines(1);
    print(`${firstLine}\n`);
    if (firstLine.startsWith("session ")) {
      const prompt = new SessionPrompt(makePromptCalls(program, {
        print: (message) => terminal.print(message), printError: (message) => terminal.printError(message),
      }));
      /** @type {TerminalPrompt} */
      const terminal = new TerminalPrompt(prompt, { output: process.stderr });
      terminal.print(GREETING);
      signalStatus = await terminal.run();
      unservedInput = signalStatus === 0 ? prompt.unfinishedText : "";
    }
  } catch (thrown) {
    if (!(thrown instanceof ProgramEndedError)) throw thrown;
  }
  await endProgram(program, unservedInput);
  return signalStatus || program.status;
}
