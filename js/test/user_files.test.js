// Tests how the Node tools read and write the user's files. The expected results come from the operating system.
import assert from "node:assert/strict";
import { execFileSync, spawnSync } from "node:child_process";
import {
  chmodSync, lstatSync, mkdirSync, mkdtempSync, readFileSync, readdirSync, rmSync, statSync, symlinkSync, writeFileSync,
} from "node:fs";
import { tmpdir } from "node:os";
import { join } from "node:path";
import { after, test } from "node:test";
import { Client as ServerClient } from "../../checks/lib/lsp_client.mjs";
import { Client as AdapterClient } from "../../checks/lib/dap_client.mjs";
import { isInside, readUserText, prepareReplacement, writeUserFile } from "../node/user_files.mjs";

const temporaryFolder = mkdtempSync(join(tmpdir(), "user_files."));
after(() => rmSync(temporaryFolder, { recursive: true }));
const MODULE = new URL("../node/user_files.mjs", import.meta.url).pathname;
const MCS4 = new URL("../../mcs4", import.meta.url).pathname;

function createFolder(name) {
  const folder = join(temporaryFolder, name);
  mkdirSync(folder);
  return folder;
}

const modeOf = (name) => (statSync(name).mode & 0o7777).toString(8);

/**
 * Runs a line of JavaScript with the functions of the tested module, in a separate process that limits the size of files to a number of
 * blocks. Returns the output.
 */
function runWithSizeLimit(line, file, blocks = "unlimited") {
  const script = `import * as files from "${MODULE}"; ${line}`;
  const shell = "ulimit -f \"$1\"; trap '' XFSZ; exec \"$2\" --input-type=module -e \"$3\" \"$4\"";
  return spawnSync("sh", ["-c", shell, "sh", blocks, process.execPath, script, file], { encoding: "utf8" }).stdout;
}

test("regular files are read, up to a size", () => {
  const folder = createFolder("read");
  writeFileSync(join(folder, "text"), "seven \u00e9");
  assert.equal(readUserText(join(folder, "text")), "seven \u00e9");
  assert.equal(readUserText(join(folder, "text"), 8), "seven \u00e9");
  assert.throws(() => readUserText(join(folder, "text"), 7), /^Error: cannot read .*text: it has more than 7 bytes$/);
  assert.throws(() => readUserText(join(folder, "none")), /: there is no such file$/);
  assert.throws(() => readUserText(folder), /: it is a folder$/);
  // A file that reports no size can also be read, but not beyond the limit.
  assert.match(readUserText("/proc/self/status"), /^Name:/);
});

test("devices and FIFOs are rejected without a wait", () => {
  const folder = createFolder("devices");
  execFileSync("mkfifo", [join(folder, "fifo")]);
  symlinkSync("/dev/zero", join(folder, "zero"));
  for (const name of ["fifo", "zero"]) {
    assert.throws(() => readUserText(join(folder, name)), /: it is not a regular file$/);
  }
});

test("links that lead out of a folder are detected", () => {
  const folder = createFolder("links");
  mkdirSync(join(folder, "in"));
  writeFileSync(join(folder, "out"), "");
  writeFileSync(join(folder, "in", "own"), "");
  symlinkSync("../out", join(folder, "in", "away"));
  symlinkSync("own", join(folder, "in", "link"));
  assert.deepEqual(["own", "link", "away"].map((name) => isInside(join(folder, "in", name), join(folder, "in"))), [true, true, false]);
});

test("a replaced file keeps its mode, and links are followed", () => {
  const folder = createFolder("write");
  const [file, link, danglingLink] = ["file", "link", "dangling"].map((name) => join(folder, name));
  writeUserFile(file, "new");
  assert.equal(modeOf(file), (0o666 & ~process.umask()).toString(8));
  chmodSync(file, 0o640);
  symlinkSync("file", link);
  symlinkSync("there", danglingLink);
  writeUserFile(link, "by a link");
  writeUserFile(danglingLink, "where it leads");
  assert.deepEqual([lstatSync(link).isSymbolicLink(), readFileSync(file, "utf8"), modeOf(file)], [true, "by a link", "640"]);
  assert.equal(readFileSync(join(folder, "there"), "utf8"), "where it leads");
  assert.deepEqual(readdirSync(folder).sort(), ["dangling", "file", "link", "there"]);
});

test("a file of another user keeps its owner", { skip: process.getuid() !== 0 }, () => {
  const file = join(createFolder("owner"), "file");
  writeFileSync(file, "old");
  execFileSync("chown", ["12345:23456", file]);
  writeUserFile(file, "new");
  assert.deepEqual([statSync(file).uid, statSync(file).gid, readFileSync(file, "utf8")], [12345, 23456, "new"]);
});

test("a file that cannot be written stays unchanged", () => {
  const folder = createFolder("refused");
  const file = join(folder, "file");
  writeFileSync(file, "old");
  chmodSync(file, 0o444);
  assert.throws(() => writeUserFile(file, "new"), /^Error: cannot write .*file: it is read-only$/);
  assert.deepEqual([readFileSync(file, "utf8"), readdirSync(folder)], ["old", ["file"]]);
  assert.throws(() => writeUserFile(join(folder, "none", "file"), "new"), /: there is no such file$/);
  assert.throws(() => writeUserFile("/dev/full", "new"), /: no space left on the device$/);
  symlinkSync("round", join(folder, "round"));
  assert.throws(() => writeUserFile(join(folder, "round"), "new"), /: too many symbolic links$/);
});

test("a file that exceeds the size limit leaves no partial file", () => {
  const folder = createFolder("full");
  const file = join(folder, "file");
  writeFileSync(file, "old");
  const line = "try { files.writeUserFile(process.argv[1], 'x'.repeat(100000)); } catch ({ message }) { console.log(message); }";
  assert.match(runWithSizeLimit(line, file, "8"), /: it would exceed the size limit for files\n$/);
  assert.deepEqual([readFileSync(file, "utf8"), readdirSync(folder)], ["old", ["file"]]);
});

test("a prepared replacement is a new file, and is removed with its process", () => {
  const folder = createFolder("pending");
  const file = join(folder, "file");
  writeFileSync(file, "old");
  const line = "console.log(files.prepareReplacement(process.argv[1], 'new').name); process.exit(1);";
  const names = [1, 2].map(() => runWithSizeLimit(line, file));
  assert.notEqual(names[0], names[1]);
  assert.deepEqual(readdirSync(folder), ["file"]);
  const replacement = prepareReplacement(file, "new");
  assert.equal(statSync(replacement.name).isFile(), true);
  replacement.drop();
  assert.deepEqual([readFileSync(file, "utf8"), readdirSync(folder)], ["old", ["file"]]);
});

/**
 * Returns a client of a command. At the end of the test `context`, the command is killed if it is still running, so that a failed test
 * ends, too.
 */
function startClient(context, Client) {
  const client = new Client(MCS4);
  context.after(() => client.child.kill());
  return client;
}

/** Returns a new folder with a program and, for the kinds `fifo` and `zero`, a special file `name`: a FIFO, or a link to /dev/zero. */
function createFolderWithSpecialFile(name, kind) {
  const folder = mkdtempSync(join(temporaryFolder, `${kind}.`));
  writeFileSync(join(folder, "p.asm"), "start:  LDM 1\n        JUN start\n");
  if (kind === "fifo") execFileSync("mkfifo", [join(folder, name)]);
  if (kind === "zero") symlinkSync("/dev/zero", join(folder, name));
  return folder;
}

test("the language server answers beside a device or a FIFO", async (context) => {
  for (const [name, kind] of [["mcs4.toml", "zero"], ["mcs4.toml", "fifo"], ["board.toml", "zero"], ["board.toml", "fifo"]]) {
    const folder = createFolderWithSpecialFile(name, kind);
    const client = startClient(context, ServerClient);
    await client.beginSession();
    const uri = `file://${join(folder, "p.asm")}`;
    assert.deepEqual(await client.openDocument(uri, readFileSync(join(folder, "p.asm"), "utf8")), []);
    assert.equal(await client.endSession(), 0);
  }
});

test("the debug adapter rejects a device, a FIFO and a link out of the project", async (context) => {
  for (const kind of ["zero", "fifo"]) {
    const folder = createFolderWithSpecialFile("board.toml", kind);
    const client = startClient(context, AdapterClient);
    await client.request("initialize", {});
    assert.match((await client.fetchResponse("launch", { program: join(folder, "p.asm") })).message, /^cannot read .*board.toml/);
    assert.equal(await client.endSession(), 0);
  }
  const folder = createFolderWithSpecialFile("", "link");
  mkdirSync(join(folder, "in"));
  writeFileSync(join(folder, "board.toml"), "[[rom]]\nchip = 0\nport = \"0000\"\n");
  symlinkSync("../board.toml", join(folder, "in", "board.toml"));
  writeFileSync(join(folder, "in", "p.asm"), "NOP\n");
  writeFileSync(join(folder, "in", "mcs4.toml"), "board = \"board.toml\"\nprogram = \"p.asm\"\n");
  const client = startClient(context, AdapterClient);
  await client.request("initialize", {});
  const message = /board.toml is a link that leads out of the project's folder$/;
  for (const launchArguments of [{ project: join(folder, "in") }, { program: join(folder, "in", "p.asm") }]) {
    assert.match((await client.fetchResponse("launch", launchArguments)).message, message);
  }
  assert.equal(await client.endSession(), 0);
});

test("the prompt rejects a device and a FIFO", () => {
  for (const kind of ["zero", "fifo"]) {
    const folder = createFolderWithSpecialFile("b.toml", kind);
    const { status, stderr } = spawnSync(MCS4, ["debug", join(folder, "b.toml"), join(folder, "p.asm")], { encoding: "utf8", input: "" });
    assert.deepEqual([status, /^debug: cannot read /.test(stderr)], [1, true]);
  }
});
