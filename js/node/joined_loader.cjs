// Loads the joined file of a command. tools/join_commands.mjs builds it from all modules of the command, and it starts faster than the
// separate modules. The loader uses a joined file only if its checksum matches the sources in the tree. Checksums are slow to compute, so
// the user's cache stores the sizes and times of the sources. While these are unchanged, the loader does not compute the checksum again.
// (tools/lib/start.sh does the same for the native program.)
//
// Compiling a joined file takes a tenth of the startup time. The cache therefore also stores the compiled code of the last version of each
// command that ran.
"use strict";
const {
  closeSync, existsSync, fsyncSync, lstatSync, mkdirSync, openSync, readFileSync, renameSync, rmSync, statSync, writeFileSync,
} = require("node:fs");
const { dirname, join } = require("node:path");
const { Script } = require("node:vm");

const TOP = join(__dirname, "../..");
const COMMANDS_FOLDER = join(TOP, "shipped/commands");
const IS_WINDOWS = process.platform === "win32";
const OWNER_ONLY_MODE = 0o700;
const OWNER_ONLY_FILE_MODE = 0o600;
const OTHERS_ACCESS_BITS = 0o077;
/**
 * The age in milliseconds up to which a file is too new for the cache. On a file system that records times in whole seconds, the next
 * change of such a file might not change its time.
 */
const RECENT_CHANGE_TIME = 3000;
/** The length of the header before the compiled code, in bytes. */
const HEADER_LENGTH = 80;
/**
 * The kind of a run: "done" if the command did its work; "asked" if it only printed its help or an error, so that fewer functions were compiled.
 * @typedef {"done" | "asked"} RunKind
 */
/** @typedef {{ run: (words: string[]) => Promise<number> }} JoinedModule the exports of a joined file; `run` resolves to the exit status */
/** @type {RunKind[]} */
const RUN_KINDS = ["done", "asked"];
/** The highest exit status of a run of the kind "done". */
const MAX_DONE_STATUS = 1;

/**
 * Returns the checksum of the concatenated contents of files. Loads node:crypto only here, because that module is slow to load and rarely needed.
 * @param {string[]} names
 */
function hashFiles(names) {
  const hash = require("node:crypto").createHash("sha256");
  for (const name of names) hash.update(readFileSync(name));
  return hash.digest("hex");
}

/**
 * Returns true if a folder exists and belongs to the user.
 * @param {string} name
 */
function belongsToUser(name) {
  const stat = lstatSync(name, { throwIfNoEntry: false });
  // Windows has no user ids, but its home folder belongs to the user.
  return stat !== undefined && stat.isDirectory() && (!process.getuid || stat.uid === process.getuid());
}

/**
 * Returns the path of mcs4's private cache folder, and creates the folder if necessary. Returns "" if it cannot be created, belongs to
 * another user, or is accessible to other users.
 */
function findCacheFolder() {
  const { XDG_CACHE_HOME = "", HOME = "", LOCALAPPDATA = "" } = process.env;
  const cacheRoot = IS_WINDOWS ? LOCALAPPDATA : XDG_CACHE_HOME.startsWith("/") ? XDG_CACHE_HOME : /^\/./.test(HOME) ? join(HOME, ".cache") : "";
  if (cacheRoot === "") return "";
  const folder = join(cacheRoot, "fethsaim");
  try {
    if (!existsSync(folder) && (belongsToUser(cacheRoot) || (!existsSync(cacheRoot) && belongsToUser(dirname(cacheRoot))))) {
      mkdirSync(folder, { recursive: true, mode: OWNER_ONLY_MODE });
    }
    return belongsToUser(folder) && (IS_WINDOWS || (statSync(folder).mode & OTHERS_ACCESS_BITS) === 0) ? folder : "";
  } catch {
    return "";
  }
}

/**
 * Returns the sizes and times of files as a single string, and whether any of the files changed less than RECENT_CHANGE_TIME ago.
 * @param {string[]} names
 */
function readFileStamps(names) {
  const stats = names.map((name) => statSync(name, { bigint: true }));
  const hasRecentChange = stats.some(({ mtimeMs, ctimeMs }) => [mtimeMs, ctimeMs].some((time) => Number(time) > Date.now() - RECENT_CHANGE_TIME));
  return { stamps: stats.map(({ dev, ino, size, mtimeNs, ctimeNs }) => `${dev} ${ino} ${size} ${mtimeNs} ${ctimeNs}\n`).join(""), hasRecentChange };
}

/**
 * Writes a cache file atomically. Ignores errors, because the next start can compute the contents again.
 * @param {string} path the path of the file
 * @param {...(string | Uint8Array)} parts
 */
function writeToCache(path, ...parts) {
  const temporaryPath = `${path}.${process.pid}`;
  try {
    const file = openSync(temporaryPath, "wx", OWNER_ONLY_FILE_MODE);
    try {
      for (const part of parts) writeFileSync(file, part);
      fsyncSync(file);
    } finally {
      closeSync(file);
    }
    renameSync(temporaryPath, path);
  } catch {
    rmSync(temporaryPath, { force: true });
  }
}

/**
 * Returns true if files have the given checksum. Does not compute the checksum if the sizes and times of the files are the same as at the
 * last successful check.
 * @param {string} folder the cache folder; "" if there is none
 * @param {string} name the name of a command
 * @param {string[]} files
 * @param {string} checksum
 */
function areUnchanged(folder, name, files, checksum) {
  if (folder === "") return hashFiles(files) === checksum;
  const path = join(folder, `${TOP.replace(/[/\\:]/g, "%")}.${name}.joined`);
  const { stamps, hasRecentChange } = readFileStamps(files);
  const stampRecord = `${checksum}\n${stamps}`;
  if (existsSync(path) && readFileSync(path, "utf8") === stampRecord) return true;
  if (hashFiles(files) !== checksum) return false;
  if (!hasRecentChange && readFileStamps(files).stamps === stamps) writeToCache(path, stampRecord);
  return true;
}

/**
 * @type {(checksum: string, kind: RunKind, length: number) => string} returns the header of a file with compiled code: the checksum of the source,
 * the kind of the run, and the length of the code
 */
const formatCodeHeader = (checksum, kind, length) => `${checksum} ${kind} ${length}\n`.padEnd(HEADER_LENGTH);

/**
 * Returns the cached code compiled from the joined file with the given checksum, and the kind of the run that stored the code. Returns undefined if
 * there is no such code.
 * @param {string} path the path of the compiled code in the cache
 * @param {string} checksum
 * @returns {{ code: Uint8Array, kind: RunKind } | undefined}
 */
function readCachedCode(path, checksum) {
  try {
    const bytes = readFileSync(path);
    const code = bytes.subarray(HEADER_LENGTH);
    const head = bytes.latin1Slice(0, HEADER_LENGTH);
    const kind = RUN_KINDS.find((runKind) => head === formatCodeHeader(checksum, runKind, code.length));
    return kind && { code, kind };
  } catch {
    return undefined;
  }
}

/**
 * Stores the compiled code of a joined file when the command ends, unless the cache already has code of the same kind.
 * @param {Script} script
 * @param {string} path the path of the compiled code in the cache
 * @param {string} checksum
 * @param {RunKind | undefined} cachedKind the kind of the cached code; undefined if there is none
 */
function storeCodeAtExit(script, path, checksum, cachedKind) {
  process.on("exit", (status) => {
    const isHelpOrError = status > MAX_DONE_STATUS || process.argv.some((word) => word === "-h" || word === "--help");
    const kind = isHelpOrError ? "asked" : "done";
    if (cachedKind === kind) return;
    const code = script.createCachedData();
    writeToCache(path, formatCodeHeader(checksum, kind, code.length), code);
  });
}

/**
 * Runs a joined file and returns its exports. The file is ASCII, so Latin 1 decodes it correctly and fast.
 * @param {string} file
 * @param {string} path the path of the compiled code in the cache; "" if there is no cache
 * @param {string} checksum
 */
function runJoinedFile(file, path, checksum) {
  const source = `(function (require, module, __filename, __dirname) {${readFileSync(file, "latin1")}\n})`;
  const { code: cachedData, kind = undefined } = (path && readCachedCode(path, checksum)) || {};
  const script = new Script(source, { filename: file, cachedData });
  const cachedKind = script.cachedDataRejected ? undefined : kind;
  if (path !== "" && cachedKind !== "done") storeCodeAtExit(script, path, checksum, cachedKind);
  const loadedModule = { exports: /** @type {JoinedModule} */ ({}) };
  script.runInThisContext()(require, loadedModule, file, dirname(file));
  return loadedModule.exports;
}

/**
 * Returns the checksum of a joined file and its sources. Returns "" if the joined file was built from other sources, or if its list of
 * sources cannot be read. Does not check the sources if the tree has none.
 * @param {string} folder the cache folder; "" if there is none
 * @param {string} name the name of a command
 * @param {string} file
 */
function findJoinedChecksum(folder, name, file) {
  try {
    const [checksum, ...sources] = readFileSync(join(COMMANDS_FOLDER, "sources", name), "utf8").trimEnd().split("\n");
    const isWithoutSources = !existsSync(join(TOP, "js/core"));
    return isWithoutSources || areUnchanged(folder, name, [...sources.map((source) => join(TOP, source)), file], checksum) ? checksum : "";
  } catch {
    return "";
  }
}

/**
 * Loads the joined file of a command. Returns null if there is none, or if it was built from other sources.
 * @param {string} name
 * @returns {JoinedModule | null}
 */
function loadJoinedCommand(name) {
  const file = join(COMMANDS_FOLDER, `${name}.cjs`);
  if (!/^[a-z]+$/.test(name) || !existsSync(file)) return null;
  const folder = findCacheFolder();
  const checksum = findJoinedChecksum(folder, name, file);
  return checksum === "" ? null : runJoinedFile(file, folder === "" ? "" : join(folder, `${name}.code`), checksum);
}

module.exports = { hashFiles, loadJoinedCommand, findCacheFolder };
