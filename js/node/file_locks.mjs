// The lock (`flock`) of a session file. The native program holds the lock while it serves the file. Other tools read the file only while no process
// holds the lock. /proc names the process that holds the lock.
import { spawnSync } from "node:child_process";
import { readFileSync, statSync } from "node:fs";
import { CommandError } from "./output.mjs";
import { readUserFile } from "./user_files.mjs";
import { sessionInUse } from "../words/adapter.js";

/** The exit status of `flock` if another process holds the lock. */
const LOCKED_STATUS = 75;
/** Matches a lock in /proc/locks. Captures the process that holds the lock, and the device and inode of the file. */
const FLOCK_LINE = /^\d+: FLOCK +\w+ +\w+ +(\d+) +([0-9a-f]+):([0-9a-f]+):(\d+) /;

/**
 * Returns the text of a file in /proc, or "" if it cannot be read.
 * @param {string} name
 */
function readProcFile(name) {
  try {
    return readFileSync(name, "utf8");
  } catch {
    return "";
  }
}

/**
 * Returns the ids of the processes that hold a lock on a file.
 * @param {string} name
 */
function findLockHolders(name) {
  const { dev, ino } = statSync(name);
  const locks = readProcFile("/proc/locks").split("\n").flatMap((line) => {
    const [, pid, major, minor, inode] = FLOCK_LINE.exec(line) || [];
    return Number(inode) === ino ? [{ pid: Number(pid), device: [major, minor].map((part) => parseInt(part, 16)) }] : [];
  });
  // Compose the device number as makedev(3) does. On some file systems, the device of a lock differs from the device of its file.
  const deviceLocks = locks.filter(({ device: [major, minor] }) => dev === ((major & 0xFFF) * 256) + (minor & 0xFF) + ((minor & 0xFFF00) * 4096));
  return (deviceLocks.length > 0 ? deviceLocks : locks).map(({ pid }) => pid).filter((pid) => pid > 0);
}

/**
 * Returns the command line and id of the process that holds the lock of a file. Returns "" if there is no such process, or if the user is
 * not allowed to see the process.
 * @param {string} name
 */
export function findLockHolder(name) {
  const [pid] = findLockHolders(name);
  if (pid === undefined) return "";
  const words = readProcFile(`/proc/${pid}/cmdline`).split("\0").filter(Boolean).map((word) => word.replace(/^.*\//, ""));
  return `${words.join(" ") || readProcFile(`/proc/${pid}/comm`).trim()} (process ${pid})`;
}

/**
 * Returns the bytes of a session file. Throws an error if a program is serving the file.
 * @param {string} name
 * @param {number} maxBytes the maximum number of bytes
 * @returns {Uint8Array}
 */
export function readUnlocked(name, maxBytes) {
  // Reject a file that is too large or not regular before `cat` opens it.
  const bytes = readUserFile(name, maxBytes);
  const { status, stdout, error } = spawnSync("flock", ["--shared", "--nonblock", "--conflict-exit-code", String(LOCKED_STATUS), name, "cat", name],
    { maxBuffer: maxBytes + 1, stdio: ["ignore", "pipe", "ignore"] });
  if (status === LOCKED_STATUS) throw new CommandError(sessionInUse(name, findLockHolder(name)));
  if (!error && status === 0) return new Uint8Array(stdout);
  // Without the `flock` command, look for a lock in /proc. The file is also in use if its contents have changed since the first read.
  const holder = findLockHolder(name);
  if (holder !== "" || !bytes.equals(readUserFile(name, maxBytes))) throw new CommandError(sessionInUse(name, holder));
  return new Uint8Array(bytes);
}
