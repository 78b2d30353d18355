// The history of lines typed at prompts, in a private file of the user: $XDG_STATE_HOME/mcs4/history, or ~/.local/state/mcs4/history. Several
// prompts can add lines at the same time, because each of them waits for a lock before it writes. A new prompt shortens a file that has become
// too long. If a prompt cannot create or use the file, only readline stores the lines, until the prompt ends.
import { closeSync, constants, existsSync, fchmodSync, fstatSync, mkdirSync, openSync, readSync, rmSync, statSync, writeSync } from "node:fs";
import { dirname, isAbsolute, join } from "node:path";
import { escapeControls } from "../core/text/control_escapes.js";
import { systemErrorCode } from "./output.mjs";
import { prepareReplacement } from "./user_files.mjs";

/** The maximum number of lines in the history. */
export const MAX_LINES = 1000;
/** The maximum length of a line in the history, in characters. */
const MAX_LINE_LENGTH = 1000;
/** The size in bytes above which a prompt shortens the file, and the maximum size of the shortened file. */
const MAX_BYTES = 262144;
const SHORTENED_BYTES = 131072;
/** The age in milliseconds above which a lock file counts as left behind by a killed process. A prompt then removes the file. */
const STALE_LOCK_AGE = 10000;
/** The time in milliseconds to wait for the lock. After this time, the prompt adds the line without the lock. */
const LOCK_TIMEOUT = 1000;
/** The time in milliseconds between two attempts to acquire the lock. */
const RETRY_INTERVAL = 3;
const OWNER_ONLY_MODE = 0o600;
const OTHERS_ACCESS_BITS = 0o077;
const APPEND_FLAGS = constants.O_RDWR | constants.O_APPEND | constants.O_CREAT | constants.O_NONBLOCK | constants.O_NOCTTY;

/**
 * Returns the path of the history file, or "" if the environment names no home folder.
 * @param {Record<string, string | undefined>} env
 */
function findHistoryPath({ XDG_STATE_HOME = "", HOME = "" }) {
  if (isAbsolute(XDG_STATE_HOME)) return join(XDG_STATE_HOME, "mcs4/history");
  return isAbsolute(HOME) ? join(HOME, ".local/state/mcs4/history") : "";
}

/**
 * Returns true if a file belongs to the user. Returns false on Windows, which has no user ids.
 * @param {import("node:fs").Stats} stat
 */
const belongsToUser = ({ uid }) => process.getuid !== undefined && uid === process.getuid();

/**
 * Creates a missing folder and its missing parents. Throws an error if the innermost existing folder belongs to another user, so that root leaves no
 * files in the home folders of other users.
 * @param {string} folder
 */
function makeFolder(folder) {
  const missingFolders = [];
  for (let path = folder; !existsSync(path); path = dirname(path)) missingFolders.unshift(path);
  if (missingFolders.length > 0 && !belongsToUser(statSync(dirname(missingFolders[0])))) throw new Error("the folder belongs to another user");
  for (const name of missingFolders) mkdirSync(name, 0o700);
}

/**
 * Opens the history file, and creates it if it does not exist. Removes the access rights of other users. Returns the file descriptor.
 * Throws an error if the file is not regular or does not belong to the user.
 * @param {string} name
 */
function openFile(name) {
  const file = openSync(name, APPEND_FLAGS, OWNER_ONLY_MODE);
  const stat = fstatSync(file);
  if (!stat.isFile() || !belongsToUser(stat)) {
    closeSync(file);
    throw new Error("it is not a regular file of the user");
  }
  if ((stat.mode & OTHERS_ACCESS_BITS) !== 0) fchmodSync(file, OWNER_ONLY_MODE);
  return file;
}

/**
 * Reads an open file from an offset to the end.
 * @param {number} file
 * @param {number} offset
 */
function readTail(file, offset) {
  const bytes = Buffer.alloc(Math.max(0, fstatSync(file).size - offset));
  return bytes.subarray(0, readSync(file, bytes, 0, bytes.length, offset));
}

/**
 * Returns the last complete lines that fit into `maxBytes` bytes.
 * @param {Buffer} bytes
 * @param {number} maxBytes
 */
function takeLastLines(bytes, maxBytes) {
  if (bytes.length <= maxBytes) return bytes;
  const tail = bytes.subarray(bytes.length - maxBytes);
  return tail.subarray(tail.indexOf("\n") + 1);
}

/**
 * Acquires the lock. Returns false if it cannot be acquired in time.
 * @param {string} lock the path of the lock file
 */
function acquireLock(lock) {
  for (let waitedTime = 0; waitedTime < LOCK_TIMEOUT; waitedTime += RETRY_INTERVAL) {
    try {
      closeSync(openSync(lock, "wx", OWNER_ONLY_MODE));
      return true;
    } catch (error) {
      if (systemErrorCode(error) !== "EEXIST") return false;
    }
    const lockStat = statSync(lock, { throwIfNoEntry: false });
    if (lockStat && Date.now() - lockStat.mtimeMs > STALE_LOCK_AGE) rmSync(lock, { force: true });
    Atomics.wait(new Int32Array(new SharedArrayBuffer(4)), 0, 0, RETRY_INTERVAL);
  }
  return false;
}

/**
 * Shortens a file that is too long, keeping its last lines.
 * @param {string} name
 * @param {number} file the open file
 */
function shortenFile(name, file) {
  if (fstatSync(file).size > MAX_BYTES) prepareReplacement(name, takeLastLines(readTail(file, 0), SHORTENED_BYTES)).replaceTarget();
}

/** @type {(line: string) => boolean} true if a terminal can show a line unchanged; the user may have added other lines to the file */
const isPrintable = (line) => line !== "" && escapeControls(line) === line;

export class PromptHistory {
  /** @param {Record<string, string | undefined>} env */
  constructor(env) {
    this.name = findHistoryPath(env);
    /** @type {string[]} the lines that the file contained when the prompt started, newest first */
    this.lines = [];
    /** The last line that was added. */
    this.lastLine = "";
    this.withFile((file, isLocked) => {
      this.lines = takeLastLines(readTail(file, 0), SHORTENED_BYTES).toString("utf8").split("\n").filter(isPrintable).slice(-MAX_LINES).reverse();
      [this.lastLine = ""] = this.lines;
      if (isLocked) shortenFile(this.name, file);
    });
  }

  /**
   * Calls `operation` with the open file, and holds the lock during the call if possible. After an error, does not use the file again.
   * @param {(file: number, isLocked: boolean) => void} operation
   */
  withFile(operation) {
    if (this.name === "") return;
    const lock = `${this.name}.lock`;
    let isLocked = false;
    try {
      makeFolder(dirname(this.name));
      isLocked = acquireLock(lock);
      const file = openFile(this.name);
      try {
        operation(file, isLocked);
      } finally {
        closeSync(file);
      }
    } catch {
      this.name = "";
    } finally {
      if (isLocked) rmSync(lock, { force: true });
    }
  }

  /**
   * Adds a line, unless it is blank, too long, or equal to the last line.
   * @param {string} line
   */
  add(line) {
    if (line.trim() === "" || line === this.lastLine || line.length > MAX_LINE_LENGTH) return;
    this.lastLine = line;
    this.withFile((file) => writeSync(file, `${line}\n`));
  }
}
