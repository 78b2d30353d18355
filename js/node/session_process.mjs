// Runs the native program on a user's session file, with asynchronous reads. The program executes session lines and prints their answers.
import { spawn } from "node:child_process";
import { constants } from "node:os";
import { parseRefusal } from "../core/bench/answers.js";
import { SEQ_ANSWER, isSeqQuery } from "../core/bench/inputs.js";
import { findProgramPath } from "./native_program.mjs";
import { CommandError } from "./output.mjs";
import { programEnded, sessionRejectedForReason } from "../words/commands.js";

/** The number that shells add to the number of a signal to form an exit status. */
const SIGNAL_STATUS_OFFSET = 128;

/** The error that is thrown if the program ends before it has answered. */
export class ProgramEndedError extends CommandError {}

/** A running program that serves a session file. */
export class SessionProcess {
  /**
   * @param {"new" | "open"} word the subcommand of the program
   * @param {string} name the session's file name
   * @param {boolean} [isAtTerminal] true if the program uses this process's standard error; signals from the terminal then do not reach the
   *   program
   */
  constructor(word, name, isAtTerminal = false) {
    this.child = spawn(findProgramPath(), [word, name], { stdio: ["pipe", "pipe", isAtTerminal ? "inherit" : "pipe"], detached: isAtTerminal });
    this.child.stdout.setEncoding("utf8");
    /** @type {string[]} the answer lines that `readLines` has not returned yet */
    this.lines = [];
    /** The incomplete last line of the output. */
    this.partialLine = "";
    /** The program's output on standard error; an error message if the program did not start. */
    this.errorOutput = "";
    /** The first answer line. */
    this.openingLine = "";
    /** @type {() => void} continues `readLines` */
    this.wake = () => {};
    this.hasEnded = false;
    /** The program's exit status. Valid once the program has ended. */
    this.status = 1;
    this.child.stdout.on("data", (text) => {
      const lines = (this.partialLine + text).split("\n");
      this.partialLine = lines.pop() ?? "";
      this.lines.push(...lines);
      this.wake();
    });
    if (this.child.stderr) {
      this.child.stderr.on("data", (text) => {
        this.errorOutput += text;
      });
    }
    this.child.stdin.on("error", () => {});
    /** @type {Promise<void>} */
    this.endPromise = new Promise((resolve) => {
      const finish = (/** @type {string} */ error) => {
        this.hasEnded = true;
        this.errorOutput += error;
        this.wake();
        resolve();
      };
      this.child.on("error", ({ message }) => finish(message));
      this.child.on("close", (status, signal) => {
        this.status = signal ? SIGNAL_STATUS_OFFSET + constants.signals[signal] : status ?? 1;
        finish("");
      });
    });
  }

  /**
   * Resolves to the next answer lines. Throws ProgramEndedError if the program ends before it has printed them.
   * @param {number} count the number of lines
   */
  async readLines(count) {
    while (this.lines.length < count) {
      if (this.hasEnded) throw new ProgramEndedError(programEnded([...this.lines, this.errorOutput.trim()].filter(Boolean).join("; ")));
      await /** @type {Promise<void>} */ (new Promise((resolve) => {
        this.wake = resolve;
      }));
    }
    return this.lines.splice(0, count);
  }

  /**
   * Sends lines to the program. Resolves to the answer lines.
   * @param {string} lines
   * @param {number} count the number of answer lines
   */
  ask(lines, count) {
    this.child.stdin.write(lines);
    return this.readLines(count);
  }

  /**
   * Sends one input, or several inputs without `seq`, to the program. Then sends a `seq` line, whose answer marks the end of the answers to
   * the inputs.
   * @param {string} input
   * @param {(line: string) => void} onAnswer called with each answer line as it arrives
   */
  async serve(input, onAnswer) {
    this.child.stdin.write(`${input}seq\n`);
    let expectedSeqCount = isSeqQuery(input.trimEnd()) ? 1 : 0;
    for (;;) {
      const [line] = await this.readLines(1);
      if (SEQ_ANSWER.test(line)) {
        if (expectedSeqCount === 0) return;
        expectedSeqCount -= 1;
      }
      onAnswer(line);
    }
  }

  /** Closes the program's input, so that the program ends. */
  close() {
    this.child.stdin.end();
  }

  /** Closes the program's input and waits until the program has ended. */
  async end() {
    this.close();
    await this.endPromise;
  }
}

/**
 * Resolves to an answer, followed by its meaning if it is a refusal. Loads the messages at the first refusal.
 * @param {string} answer
 */
async function addRefusalMessage(answer) {
  const refusal = parseRefusal(answer);
  if (!refusal) return answer;
  const { describeRefusal } = await import("./rejected_texts.mjs");
  return `${answer}: ${describeRefusal(refusal.number)}`;
}

/**
 * Starts the program on a session file. Resolves to its process. If the program rejects the file, throws an error with the program's
 * message.
 * @param {"new" | "open"} word
 * @param {string} name
 */
export async function openProgram(word, name) {
  const program = new SessionProcess(word, name);
  const [firstLine] = await program.readLines(1);
  program.openingLine = firstLine;
  if (firstLine.startsWith("session ")) return program;
  await program.end();
  throw new CommandError(sessionRejectedForReason(name, [await addRefusalMessage(firstLine), program.errorOutput.trim()].filter(Boolean).join("; ")));
}
