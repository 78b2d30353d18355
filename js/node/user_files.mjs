// Reads and writes the user's files for the Node tools. An input file must be regular and not larger than a limit. An output file replaces its target
// atomically, and leaves no temporary file behind.
import { constants } from "node:fs";
import {
  accessSync, closeSync, existsSync, fchmodSync, fchownSync, fstatSync, fsyncSync, lstatSync, mkdirSync, openSync, readSync, readlinkSync,
  realpathSync, renameSync, rmSync, rmdirSync, statSync, writeFileSync,
} from "node:fs";
import { createRequire } from "node:module";
import { dirname, join, resolve, sep } from "node:path";
import { MAX_STORED_LENGTH } from "../core/text/sendable_text.js";
import * as say from "../words/commands.js";
import { CommandError } from "./output.mjs";

/** The maximum size of a user's text in bytes. A character has at most four bytes. */
export const MAX_USER_TEXT = 4 * MAX_STORED_LENGTH;
/** The maximum number of symbolic links to follow, the same as in Linux. */
const MAX_LINKS = 40;
const CHUNK_BYTES = 65536;
const WRITE_BITS = 0o222;
const MODE_BITS = 0o7777;
const OWNER_ONLY_MODE = 0o600;

/** The error for a file that cannot be read or written. The message contains the file's name. */
export class UserFileError extends CommandError {}

/** The reason for a UserFileError, without the file's name. `withFileError` adds the name. */
class FileErrorReason extends Error {}

/** @type {Record<string, string>} the messages, by system error code */
const REASONS = {
  ENOENT: "there is no such file", EACCES: "no permission", EPERM: "no permission", ENOSPC: "no space left on the device",
  EDQUOT: "the disk quota is used up", EFBIG: "it would exceed the size limit for files", EROFS: "the file system is read-only",
  EISDIR: "it is a folder", ENOTDIR: "a part of its path is not a folder", ELOOP: "too many symbolic links", ENXIO: "it is not a regular file",
  ENAMETOOLONG: "its name is too long", EEXIST: "something else has its name",
};

/** @param {unknown} error */
function describeFileError(error) {
  const { code = "", message = String(error) } = /** @type {{ code?: string, message?: string }} */ (error);
  return REASONS[code] || message;
}

/**
 * Calls `operation` and returns its result. Converts a system error into a UserFileError.
 * @template Result
 * @param {string} failureText the beginning of the message, such as `cannot read NAME`
 * @param {() => Result} operation
 * @returns {Result}
 */
function withFileError(failureText, operation) {
  try {
    return operation();
  } catch (error) {
    throw error instanceof UserFileError ? error : new UserFileError(`${failureText}: ${describeFileError(error)}`);
  }
}

// --- reading ---

/**
 * Returns the status (`stat`) of a file to read; undefined if there is no such file.
 * @param {string} name
 */
export function statInput(name) {
  return withFileError(`cannot read ${name}`, () => statSync(name, { throwIfNoEntry: false }));
}

/**
 * Returns true if a file is in a folder, after following all links.
 * @param {string | URL} name
 * @param {string | URL} folder
 */
export function isInside(name, folder) {
  return realpathSync(name).startsWith(realpathSync(folder).replace(/\/$/, "") + sep);
}

/**
 * Reads an open file to its end. Throws a FileErrorReason if the file is larger than a limit. Counts the size while reading, because files in /proc
 * report no size, and other files can grow in the meantime.
 * @param {number} file
 * @param {number} maxBytes the maximum number of bytes
 */
function readToEnd(file, maxBytes) {
  const parts = [];
  for (let size = 0; ;) {
    const part = Buffer.allocUnsafe(CHUNK_BYTES);
    const count = readSync(file, part);
    if (count === 0) return Buffer.concat(parts);
    parts.push(part.subarray(0, count));
    size += count;
    if (size > maxBytes) throw new FileErrorReason(`it has more than ${maxBytes} bytes`);
  }
}

/**
 * Reads an open file to its end. Throws a FileErrorReason if the file is not regular or is larger than a limit.
 * @param {number} file
 * @param {number} maxBytes the maximum number of bytes
 */
function readRegular(file, maxBytes) {
  const stat = fstatSync(file);
  if (stat.isDirectory()) throw new FileErrorReason("it is a folder");
  if (!stat.isFile()) throw new FileErrorReason("it is not a regular file");
  return readToEnd(file, maxBytes);
}

/**
 * Reads a regular file. Throws an error if the file is too large. Rejects a FIFO or a device immediately, without blocking.
 * @param {string | URL} name
 * @param {number} maxBytes the maximum number of bytes
 */
export function readUserFile(name, maxBytes) {
  return withFileError(`cannot read ${name}`, () => {
    const file = openSync(name, constants.O_RDONLY | constants.O_NONBLOCK | constants.O_NOCTTY);
    try {
      return readRegular(file, maxBytes);
    } finally {
      closeSync(file);
    }
  });
}

/**
 * Reads an open pipe or standard input to its end. Blocks until the end.
 * @param {number} stream
 * @param {string} name
 * @param {number} maxBytes the maximum number of bytes
 */
export function readStream(stream, name, maxBytes) {
  return withFileError(`cannot read ${name}`, () => readToEnd(stream, maxBytes));
}

/**
 * Reads a user's text file.
 * @param {string | URL} name
 * @param {number} [maxBytes] the maximum number of bytes
 */
export function readUserText(name, maxBytes = MAX_USER_TEXT) {
  return readUserFile(name, maxBytes).toString("utf8");
}

// --- writing ---

/** @type {Set<string>} the paths of temporary files to remove when the process exits */
const temporaryFiles = new Set();

process.on("exit", () => {
  for (const name of temporaryFiles) rmSync(name, { force: true });
});

/**
 * Returns the absolute path of the file that a name refers to through symbolic links, even if this file does not exist yet. Throws an error
 * if there are more than MAX_LINKS links. Does not follow links in /proc, because they refer to the open files of a process.
 * @param {string} name
 */
function followLinks(name) {
  let path = resolve(name);
  for (let linkCount = 0; ; linkCount++) {
    const stat = lstatSync(path, { throwIfNoEntry: false });
    if (!stat || !stat.isSymbolicLink() || path.startsWith("/proc/")) return path;
    if (linkCount === MAX_LINKS) throw new FileErrorReason("too many symbolic links");
    const folder = realpathSync(dirname(path));
    path = resolve(folder, readlinkSync(path));
  }
}

/** Returns an unpredictable name. (Loads node:crypto only here, because node:crypto is slow to load.) */
function randomName() {
  return createRequire(import.meta.url)("node:crypto").randomBytes(12).toString("hex");
}

/** A temporary file that will replace a target file in the same folder, with the target's mode and owner. */
export class Replacement {
  /**
   * @param {string} target a path without links
   * @param {string | Uint8Array} bytes
   */
  constructor(target, bytes) {
    this.target = target;
    this.name = join(dirname(target), `.mcs4-${randomName()}`);
    const oldStat = statSync(target, { throwIfNoEntry: false });
    if (oldStat) checkWritable(target, oldStat);
    const file = openSync(this.name, "wx", oldStat ? OWNER_ONLY_MODE : 0o666);
    temporaryFiles.add(this.name);
    try {
      writeFileSync(file, bytes);
      if (oldStat) copyOwner(file, oldStat);
      fsyncSync(file);
    } catch (error) {
      this.drop();
      throw error;
    } finally {
      closeSync(file);
    }
  }

  /** Renames the temporary file to the target. If that fails, removes the temporary file and throws the error. */
  replaceTarget() {
    try {
      renameSync(this.name, this.target);
      temporaryFiles.delete(this.name);
    } catch (error) {
      this.drop();
      throw error;
    }
  }

  /** Removes the temporary file. The target stays unchanged. */
  drop() {
    rmSync(this.name, { force: true });
    temporaryFiles.delete(this.name);
  }
}

/**
 * Throws a FileErrorReason if a target is read-only. Throws it even for root, who could replace the target.
 * @param {string} target
 * @param {import("node:fs").Stats} oldStat
 */
function checkWritable(target, { mode }) {
  if ((mode & WRITE_BITS) === 0) throw new FileErrorReason("it is read-only");
  accessSync(target, constants.W_OK);
}

/**
 * Gives a new file the owner and mode of the file that it will replace. Throws a FileErrorReason if the user is not allowed to set this owner.
 * @param {number} file
 * @param {import("node:fs").Stats} oldStat
 */
function copyOwner(file, { uid, gid, mode }) {
  const newStat = fstatSync(file);
  if (newStat.uid !== uid || newStat.gid !== gid) {
    try {
      fchownSync(file, uid, gid);
    } catch {
      throw new FileErrorReason("it belongs to another user or group, which a new file cannot have");
    }
  }
  fchmodSync(file, mode & MODE_BITS);
}

/**
 * Creates the temporary file that will replace a file. Follows the links in the file's path.
 * @param {string} name
 * @param {string | Uint8Array} bytes
 */
export function prepareReplacement(name, bytes) {
  return withFileError(`cannot write ${name}`, () => new Replacement(followLinks(name), bytes));
}

/**
 * Returns true if a name refers to a device, a pipe or a stream of a process. None of these can be replaced.
 * @param {string} name
 */
function isStream(name) {
  return existsSync(name) && (!statSync(name).isFile() || followLinks(name).startsWith("/proc/"));
}

/**
 * Writes a user's file atomically: at every moment, the file has either the old bytes or the new bytes. Writes directly to a device or a
 * pipe.
 * @param {string} name
 * @param {string | Uint8Array} bytes
 */
export function writeUserFile(name, bytes) {
  withFileError(`cannot write ${name}`, () => {
    if (isStream(name)) writeFileSync(name, bytes, { flag: "a" });
    else prepareReplacement(name, bytes).replaceTarget();
  });
}

/**
 * Returns true if two names refer to the same file.
 * @param {string} firstName
 * @param {string} secondName
 */
function isSameFile(firstName, secondName) {
  const [first, second] = [firstName, secondName].map(statInput);
  return first !== undefined && second !== undefined && first.dev === second.dev && first.ino === second.ino;
}

/**
 * Returns true if a folder exists and is writable.
 * @param {string} folder
 */
function isWritable(folder) {
  try {
    accessSync(folder, constants.W_OK);
    return true;
  } catch {
    return false;
  }
}

/**
 * Returns the first bytes of a file, decoded as Latin 1.
 * @param {string} name
 * @param {number} count
 */
function readBeginning(name, count) {
  return withFileError(`cannot read ${name}`, () => {
    const file = openSync(name, "r");
    try {
      const bytes = Buffer.alloc(count);
      return bytes.toString("latin1", 0, readSync(file, bytes));
    } finally {
      closeSync(file);
    }
  });
}

/**
 * Throws a UserFileError if a command must not overwrite a file. A command can overwrite an empty file or a file of the kind that it writes, but none
 * of its inputs. New files, devices and pipes are accepted.
 * @param {string} name
 * @param {string} header the text at the beginning of files of this kind
 * @param {string} reason the reason to reject a file of another kind
 * @param {string[]} inputs the names of the files that the command reads
 */
export function checkOutputFile(name, header, reason, inputs) {
  const stat = withFileError(`cannot write ${name}`, () => statSync(name, { throwIfNoEntry: false }));
  if (inputs.some((input) => isSameFile(name, input))) throw new UserFileError(say.outputIsInputMessage(name));
  if (stat && stat.isDirectory()) throw new UserFileError(say.fileIsFolderMessage(name));
  withFileError(`cannot write ${name}`, () => {
    if (stat && !stat.isFile()) return accessSync(name, constants.W_OK);
    const target = followLinks(name);
    if (!isWritable(dirname(target))) throw new UserFileError(say.folderNotWritableMessage(name));
    return stat && checkWritable(target, stat);
  });
  const hasContents = stat && stat.isFile() && stat.size > 0;
  if (hasContents && readBeginning(name, header.length) !== header) throw new UserFileError(say.fileOfOtherKindMessage(name, reason));
}

// --- new files in a folder ---

/**
 * Creates a missing folder and its missing parents. Returns the created folders, innermost first.
 * @param {string} folder
 */
function makeFolder(folder) {
  const missingFolders = [];
  for (let path = resolve(folder); !existsSync(path); path = dirname(path)) missingFolders.unshift(path);
  const createdFolders = [];
  try {
    for (const name of missingFolders) {
      mkdirSync(name);
      createdFolders.unshift(name);
    }
  } catch (error) {
    for (const name of createdFolders) rmdirSync(name);
    throw error;
  }
  return createdFolders;
}

/**
 * Renames temporary files to their targets. If one rename fails, removes the files already renamed.
 * @param {Replacement[]} replacements
 */
function replaceTargets(replacements) {
  const targets = [];
  try {
    for (const replacement of replacements) {
      replacement.replaceTarget();
      targets.push(replacement.target);
    }
  } catch (error) {
    for (const name of targets) rmSync(name, { force: true });
    throw error;
  }
}

/**
 * Writes new files into a folder. If an error occurs, leaves none of them there. Creates the folder if it does not exist. Throws an error if one of
 * the files in `names` exists, or if a file cannot be written.
 * @param {string} folder
 * @param {{ name: string, content: string | Uint8Array }[]} files
 * @param {string[]} names the names of files that must not exist in the folder
 */
export function writeNewFiles(folder, files, names) {
  const withFolderError = (/** @type {() => any} */ operation) => withFileError(`cannot write in ${folder}`, operation);
  const stat = withFolderError(() => statSync(folder, { throwIfNoEntry: false }));
  if (stat && !stat.isDirectory()) throw new UserFileError(say.notAFolderMessage(folder));
  const existingPath = withFolderError(() => names.map((name) => join(folder, name)).find((name) => lstatSync(name, { throwIfNoEntry: false })));
  if (existingPath) throw new UserFileError(say.alreadyExists(existingPath));
  const createdFolders = withFileError(`cannot make ${folder}`, () => makeFolder(folder));
  /** @type {Replacement[]} */
  const replacements = [];
  try {
    for (const { name, content } of files) replacements.push(prepareReplacement(join(folder, name), content));
    withFileError(`cannot write in ${folder}`, () => replaceTargets(replacements));
  } catch (error) {
    for (const replacement of replacements) replacement.drop();
    for (const name of createdFolders) rmdirSync(name);
    throw error;
  }
}

/**
 * Throws a UserFileError if a file does not exist, is a pipe or a device, or is not writable.
 * @param {string} name
 */
export function checkWritableFile(name) {
  const stat = withFileError(`cannot read ${name}`, () => statSync(name));
  if (!stat.isFile() && !stat.isDirectory()) throw new UserFileError(`cannot read ${name}: ${REASONS.ENXIO}`);
  withFileError(`cannot write ${name}`, () => checkWritable(name, stat));
}
