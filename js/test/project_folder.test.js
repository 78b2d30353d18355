// Tests the reader of project files: the contents of a file, and each error with its line.
import assert from "node:assert/strict";
import { mkdirSync, mkdtempSync, rmSync, symlinkSync, writeFileSync } from "node:fs";
import { tmpdir } from "node:os";
import { join } from "node:path";
import { test } from "node:test";
import { ProjectError, readProject } from "../core/project/project_folder.js";
import { readProjectToml } from "../core/project/project_toml.js";
import { readProjectFolder } from "../node/project_on_disk.mjs";

const VALID_PROJECT = "board = \"board.toml\"\nprogram = \"main.asm\" # the source\n";
const bytesOf = (text) => new TextEncoder().encode(text);
const firstErrorOf = (text) => {
  const [{ line, words }] = readProjectToml(text).errors;
  return `${line}: ${words}`;
};

test("a project file contains the names of files, and a speed", () => {
  const optionalKeys = "tests = [\n  \"a.test\",\n  \"more/b.test\",\n]\nproperties = []\nspeed = \"full\"\r\n";
  const { names, errors } = readProjectToml(`\uFEFF${VALID_PROJECT}${optionalKeys}`);
  assert.deepEqual(errors, []);
  assert.deepEqual(names.board, { path: "board.toml", key: "board", line: 1, from: 8, to: 20 });
  assert.deepEqual(names.tests.map(({ path, line }) => [path, line]), [["a.test", 4], ["more/b.test", 5]]);
  assert.deepEqual([names.properties, names.speed], [[], "full"]);
});

test("errors in a project file are reported with their lines", () => {
  assert.match(firstErrorOf(`${VALID_PROJECT}lamp = "x"\n`), /^3: a project has no key lamp; it has board, program/);
  assert.match(firstErrorOf("board = \"b.toml\"\n"), /^1: program is missing/);
  assert.match(firstErrorOf(`${VALID_PROJECT}board = "c.toml"\n`), /^3: board is already on line 1/);
  assert.match(firstErrorOf(`${VALID_PROJECT}tests = "a.test"\n`), /^3: tests is a list of paths/);
  assert.match(firstErrorOf(`${VALID_PROJECT}tests = [1]\n`), /^3: tests is a list of paths/);
  assert.match(firstErrorOf("board = []\n"), /^1: board is the path of a file/);
  assert.match(firstErrorOf(`${VALID_PROJECT}speed = "quick"\n`), /^3: speed is one of "real", .* or "full"$/);
  assert.match(firstErrorOf(`${VALID_PROJECT}[[rom]]\nchip = 0\n`), /^3: a project has no tables/);
  assert.match(firstErrorOf("board = b.toml\n"), /^1: b.toml is a text: write it in quotes/);
  for (const path of ["/etc/passwd", "../b.toml", "a/../../b.toml", "a\\\\b", ""]) {
    assert.match(firstErrorOf(`board = "${path}"\n`), /^1: .*(folder|path)/, path);
  }
});

test("a project's files must be in its folder", () => {
  const paths = readProject(bytesOf(VALID_PROJECT), () => "");
  assert.deepEqual(paths, { board: "board.toml", program: "main.asm", tests: [], properties: [], speed: "" });
  assert.throws(() => readProject(bytesOf(VALID_PROJECT), (path) => (path === "main.asm" ? "there is no file main.asm" : "")),
    new ProjectError("mcs4.toml", "program: there is no file main.asm", 2));
  for (const bytes of [bytesOf(""), new Uint8Array(20000), bytesOf("board\0")]) {
    assert.throws(() => readProject(bytes, () => ""), ProjectError);
  }
});

test("a project on the disk is read; missing files, folders and links out of the project are rejected", (context) => {
  const folder = mkdtempSync(join(tmpdir(), "project_folder."));
  context.after(() => rmSync(folder, { recursive: true }));
  assert.throws(() => readProjectFolder(folder), /mcs4\.toml: there is no such file/);
  writeFileSync(join(folder, "mcs4.toml"), VALID_PROJECT);
  writeFileSync(join(folder, "main.asm"), "NOP\n");
  assert.throws(() => readProjectFolder(folder), /mcs4\.toml: line 1: board: there is no file board\.toml$/);
  symlinkSync("/etc/hostname", join(folder, "board.toml"));
  assert.throws(() => readProjectFolder(folder), /line 1: board: board\.toml is a link that leads out of the project's folder$/);
  rmSync(join(folder, "board.toml"));
  mkdirSync(join(folder, "board.toml"));
  assert.throws(() => readProjectFolder(folder), /line 1: board: board\.toml is a folder, not a file$/);
  rmSync(join(folder, "board.toml"), { recursive: true });
  writeFileSync(join(folder, "board.toml"), "");
  assert.equal(readProjectFolder(folder).program, join(folder, "main.asm"));
});
