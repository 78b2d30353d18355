// The code that `mcs4 lsp` and `mcs4 dap` share. Passes the bytes of standard input to a connection. When no further message can arrive, prints the
// reason on standard error and ends the process.
import { isatty } from "node:tty";
import { escapeControls } from "../core/text/control_escapes.js";
import { WAITS_FOR_EDITOR } from "../words/commands.js";
import { errorMessage, printError } from "./output.mjs";

/** The time in milliseconds to wait for more bytes of an incomplete message. */
const MESSAGE_TIMEOUT = 10000;
const STDIN = 0;

/**
 * If standard input is a terminal, explains that the command waits for an editor. An editor starts the command without a terminal.
 * @param {string} name the command's name
 */
export function explainAtTerminal(name) {
  if (isatty(STDIN)) printError(`${name}: ${WAITS_FOR_EDITOR}\n`);
}

/**
 * Returns a function that ends the process after it has written all output. The function takes the exit status and the reason.
 * @param {string} name the command's name
 * @returns {(status: number, reason?: string) => void}
 */
export function makeExitFunction(name) {
  return (status, reason = "") => {
    if (reason) process.stderr.write(`${name}: ${escapeControls(reason)}\n`);
    process.exitCode = status;
    process.stdin.destroy();
    process.stdout.end(() => process.exit(status));
  };
}

/**
 * Passes the bytes of standard input to a connection.
 * @param {import("../core/server/message_stream.js").MessageStream} connection
 * @param {(reason: string) => void} onEnd called once with the reason when no further message can arrive; the reason is "" if the stream ends between
 *   messages
 */
export function listenToInput(connection, onEnd) {
  let hasEnded = false;
  let partCount = 0;
  /** @type {NodeJS.Timeout | undefined} */
  let timer;
  const end = (/** @type {string} */ reason) => {
    clearTimeout(timer);
    if (!hasEnded) onEnd(reason);
    hasEnded = true;
  };
  // If this process was suspended or busy, the rest of the message may be in the pipe. setImmediate lets Node read it first.
  const rejectIncomplete = (/** @type {number} */ earlierCount) => setImmediate(() => {
    if (earlierCount === partCount && !hasEnded) end(connection.reportIncomplete());
  });
  process.stdin.on("data", (bytes) => {
    if (hasEnded) return;
    clearTimeout(timer);
    partCount += 1;
    try {
      connection.receive(bytes);
    } catch (error) {
      end(errorMessage(error));
      return;
    }
    if (connection.reader.incompleteMessage !== "") timer = setTimeout(rejectIncomplete, MESSAGE_TIMEOUT, partCount);
  });
  process.stdin.on("end", () => !hasEnded && end(connection.reportIncomplete()));
}
