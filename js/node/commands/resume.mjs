// `mcs4 resume`: continues an interrupted script.
import { spawn } from "node:child_process";
import { once } from "node:events";
import { parseRefusal } from "../../core/bench/answers.js";
import { compareWithScript } from "../../core/bench/script_progress.js";
import { changedMeanwhile, scriptDoesNotMatch, sessionRejectedMessage, sessionRejectedForReason } from "../../words/commands.js";
import { checkArguments } from "../arguments.mjs";
import { InputTexts, MAX_TEXT_BYTES, MAX_SCRIPT_BYTES } from "../input_texts.mjs";
import { yieldToMessages, openSession, findProgramPath, startEngine } from "../native_program.mjs";
import { CommandError, printBytes, printError } from "../output.mjs";
import { describeRefusal } from "../rejected_texts.mjs";

const OPENING_LINE = /^session \d+\n/;

/**
 * Prints answers as they arrive, and resolves to null. If the first line is not `session N`, prints nothing and resolves to this line.
 * @param {import("node:stream").Readable} stream
 */
async function printAnswers(stream) {
  let openingBytes = Buffer.alloc(0);
  let isOpen = false;
  for await (const bytes of stream) {
    if (!isOpen) openingBytes = Buffer.concat([openingBytes, bytes]);
    if (!isOpen && !openingBytes.includes("\n")) continue;
    if (!isOpen && !OPENING_LINE.test(openingBytes.toString("latin1"))) continue;
    printBytes(isOpen ? bytes : openingBytes);
    isOpen = true;
  }
  return isOpen ? null : openingBytes.toString("latin1").split("\n")[0];
}

/**
 * Executes the bytes of a script in a session, and prints the answers. Resolves to the exit status. Throws an error if the session is
 * rejected.
 * @param {string} session the session's file name
 * @param {Buffer} bytes
 */
async function serveBytes(session, bytes) {
  const child = spawn(findProgramPath(), ["open", session], { stdio: ["pipe", "pipe", "pipe"] });
  const closeEvent = once(child, "close");
  child.stderr.setEncoding("utf8");
  child.stderr.on("data", printError);
  child.stdin.on("error", () => {});
  child.stdin.end(bytes);
  const rejectedLine = await printAnswers(child.stdout);
  const [status] = await closeEvent;
  if (rejectedLine === null) return status ?? 1;
  const refusal = parseRefusal(rejectedLine);
  if (!refusal) throw new CommandError(sessionRejectedForReason(session, rejectedLine));
  throw new CommandError(sessionRejectedMessage(session, refusal.number, describeRefusal(refusal.number)));
}

/**
 * Returns the bytes after the first `lineCount` lines.
 * @param {Buffer} bytes
 * @param {number} lineCount the number of lines to skip
 */
function skipLines(bytes, lineCount) {
  let offset = 0;
  for (let remaining = lineCount; remaining > 0 && offset < bytes.length; remaining--) {
    const lineEnd = bytes.indexOf("\n", offset);
    offset = lineEnd < 0 ? bytes.length : lineEnd + 1;
  }
  return bytes.subarray(offset);
}

/** @type {import("./table.mjs").CommandModule["run"]} */
export async function run(_, positionals) {
  checkArguments(positionals, ["SCRIPT", "SESSION"]);
  const [scriptName, session] = positionals;
  const texts = new InputTexts();
  const bytes = texts.read(scriptName, MAX_SCRIPT_BYTES);
  const sessionBytes = texts.read(session, MAX_TEXT_BYTES);
  // If there is no native program, fail before anything else.
  findProgramPath();
  const engine = await startEngine();
  const { lineCount, message, differingLines } = await compareWithScript(
    engine, await openSession(engine, texts, session), bytes.toString("latin1"), yieldToMessages,
  );
  if (message !== "") throw new CommandError(scriptDoesNotMatch(session, scriptName, message, differingLines));
  if (!texts.read(session, MAX_TEXT_BYTES).equals(sessionBytes)) throw new CommandError(changedMeanwhile(session));
  return serveBytes(session, skipLines(bytes, lineCount));
}
