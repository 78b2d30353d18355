// The child processes of the Node tools. Most children have their own process group, so that a signal from the tool also reaches the
// processes that a child has started.
import { loadChildProcess } from "./lazy_child_process.mjs";

/** The maximum length of each output stream of a child, in characters. A child that prints more to either stream is terminated. */
const MAX_OUTPUT = 1048576;
/**
 * The name of an environment variable that this module sets for children. If this variable is set, a command omits the messages that each user should
 * see only once.
 */
export const RUN_BY_COMMAND_VARIABLE = "MCS4_IS_RUN_BY_COMMAND";
/** True if the system has process groups. Windows has none. */
const HAS_GROUPS = process.platform !== "win32";
/**
 * The time in milliseconds after which the tool kills a child that ignores SIGTERM. A child that is a copy of this tool gets more time,
 * because it must first end its own children.
 */
const KILL_DELAYS = { command: 1000, tool: 10000 };

/**
 * The end of a child: its exit status, or the signal that ended it. `error` is a message if the child could not start, otherwise "".
 * @typedef {{ status: number | null, signal: NodeJS.Signals | null, error: string }} ChildEnd
 */

/** @type {Map<number, { child: import("node:child_process").ChildProcess, hasGroup: boolean }>} the running children, by process id */
const runningChildren = new Map();
/** True after `endAll` has started to end this process. */
let isEnding = false;

/** Returns a promise that never resolves, for callers that must wait while the process is ending. */
const waitForever = () => new Promise(() => {});

/**
 * Sends a signal to a child, and to its whole process group if it has one.
 * @param {number} pid
 * @param {NodeJS.Signals} signal
 */
function sendSignal(pid, signal) {
  const { hasGroup = false } = runningChildren.get(pid) || {};
  try {
    process.kill(hasGroup && HAS_GROUPS ? -pid : pid, signal);
  } catch {
    // The child has already ended.
  }
}

/**
 * Tracks a child until it ends. Resolves to its exit status or signal.
 * @param {import("node:child_process").ChildProcess} child
 * @param {boolean} hasGroup true if the child has its own process group
 * @returns {Promise<ChildEnd>}
 */
function trackChild(child, hasGroup) {
  const { pid } = child;
  if (pid !== undefined) runningChildren.set(pid, { child, hasGroup });
  return new Promise((resolve) => {
    const finish = (/** @type {ChildEnd} */ childEnd) => {
      if (pid !== undefined) runningChildren.delete(pid);
      resolve(childEnd);
    };
    child.on("error", ({ message }) => finish({ status: null, signal: null, error: message }));
    child.on("close", (status, signal) => finish({ status, signal, error: "" }));
  });
}

/**
 * Runs a command with the given input. Resolves to the command's exit status or signal, and its output. Terminates a command that prints too much.
 * @param {string} command
 * @param {string[]} words
 * @param {string} [input]
 */
export async function runCommand(command, words, input = "") {
  const env = { ...process.env, [RUN_BY_COMMAND_VARIABLE]: "1" };
  const child = loadChildProcess().spawn(command, words, { detached: HAS_GROUPS, env, stdio: ["pipe", "pipe", "pipe"] });
  const endPromise = trackChild(child, true);
  const outputs = [child.stdout, child.stderr].map((stream) => {
    const output = { text: "" };
    stream.setEncoding("utf8");
    stream.on("data", (text) => {
      output.text += text;
      if (output.text.length > MAX_OUTPUT && child.pid !== undefined) sendSignal(child.pid, "SIGTERM");
    });
    return output;
  });
  child.stdin.on("error", () => {});
  child.stdin.end(input);
  const { status, signal, error } = await endPromise;
  if (isEnding) await waitForever();
  return { status, signal, stdout: outputs[0].text, stderr: outputs[1].text || error };
}

/**
 * Runs this command again in another process, without its arguments. Resolves to the exit status, or to null if a signal ended the process. Both
 * processes are in the same group, so Ctrl-C reaches both.
 * @param {Record<string, string | undefined>} env
 */
export async function rerunCommand(env) {
  const child = loadChildProcess().spawn(process.execPath, process.argv.slice(1, 3), { env, stdio: ["ignore", "ignore", "inherit"] });
  const { status } = await trackChild(child, false);
  if (isEnding) await waitForever();
  return status;
}

/** Sends SIGINT to the children that have their own process group, because Ctrl-C does not reach them. */
export function interruptChildren() {
  for (const [pid, { hasGroup }] of runningChildren) if (hasGroup) sendSignal(pid, "SIGINT");
}

/** Lets the handlers of pending events run. Never resolves once the process is ending. */
export function yieldToMessages() {
  return new Promise((resume) => {
    setImmediate(() => {
      if (!isEnding) resume(undefined);
    });
  });
}

/**
 * Ends all children, then this process. Kills a child that does not end in time.
 * @param {number} status the exit status of this process
 */
async function endAll(status) {
  if (isEnding) return;
  isEnding = true;
  await Promise.all([...runningChildren].map(([pid, { child, hasGroup }]) => new Promise((resolve) => {
    child.on("close", resolve);
    sendSignal(pid, "SIGTERM");
    setTimeout(() => sendSignal(pid, "SIGKILL"), hasGroup ? KILL_DELAYS.command : KILL_DELAYS.tool);
  })));
  process.exit(status);
}

process.on("SIGTERM", () => endAll(143));
process.on("SIGHUP", () => endAll(129));
