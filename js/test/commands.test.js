// Tests the table of mcs4's commands, their help, and the parsing of arguments.

import assert from "node:assert/strict";
import { spawnSync } from "node:child_process";
import { test } from "node:test";
import { fileURLToPath } from "node:url";
import { COMMANDS } from "../node/commands/table.mjs";
import { COMMAND_WORDS } from "../words/commands.js";

const MAIN = fileURLToPath(new URL("../node/mcs4.cjs", import.meta.url));

/** Runs mcs4. Returns the exit status and the output. */
function runMcs4(...args) {
  const { status, stdout, stderr } = spawnSync(process.execPath, [MAIN, ...args], { encoding: "utf8", cwd: "/" });
  return { status, stdout, stderr };
}

test("each command has help texts and a module that runs it", async () => {
  assert.deepEqual(Object.keys(COMMANDS), Object.keys(COMMAND_WORDS));
  assert.deepEqual(Object.keys(COMMANDS), Object.keys(COMMANDS).sort());
  for (const [name, { options, load }] of Object.entries(COMMANDS)) {
    assert.deepEqual(Object.keys(options), Object.keys(COMMAND_WORDS[name].options), name);
    assert.equal(typeof (await load()).run, "function", name);
  }
});

test("help can be printed, and names all options and statuses", () => {
  for (const [name, { options }] of Object.entries(COMMANDS)) {
    const { status, stdout, stderr } = runMcs4(name, "--help");
    assert.deepEqual({ status, stderr }, { status: 0, stderr: "" });
    assert.deepEqual(runMcs4(name, "-h"), { status, stdout, stderr });
    assert.ok(stdout.startsWith(`usage: mcs4 ${name}`), name);
    for (const option of Object.keys(options)) assert.match(stdout, new RegExp(`^ .*--${option}( |\n)`, "m"));
    assert.match(stdout, /\n {2}0: [^]*\n {2}1: [^]*\n {2}2: /);
  }
});

test("wrong arguments give status 2, the usage of the command, and a suggestion for a similar option", () => {
  const usage = "usage: mcs4 cover [-C FOLDER] [--lcov FILE] [BOARD PROGRAM] [TEST ..]\n"
    + "       mcs4 cover [--lcov FILE] --session SESSION CYCLES PROGRAM\n";
  const assertRejected = (args, message) => (
    assert.deepEqual(runMcs4("cover", ...args), { status: 2, stdout: "", stderr: `cover: ${message}\n${usage}` }));
  assertRejected(["--lcvo", "x"], "there is no option --lcvo; did you mean --lcov?");
  assertRejected(["--frobnicate"], "there is no option --frobnicate");
  assertRejected(["-x"], "there is no option -x");
  assertRejected(["--lcov"], "FILE is missing after --lcov");
  assertRejected(["--lcov", "--session", "s.mcs"], "FILE is missing after --lcov");
  assertRejected(["--lcov", "a", "--lcov", "b"], "--lcov is given twice");
  assertRejected(["--help=3"], "--help takes no value");
  assertRejected(["a", "b"], "TEST is missing");
  assertRejected([], "BOARD, PROGRAM and TEST are missing, and there is no mcs4.toml here");
  assertRejected(["a", "", "c"], "an argument is empty; it names a file");
  assertRejected(["--session", "s.mcs", "0", "p"], "CYCLES: '0' is not a decimal number from 1 to 100000000");
  assertRejected(["--session", "s.mcs", "-5", "p"], "there is no option -5");
  assertRejected(["--session", "s.mcs", "1", "p", "q"], "'q' is one argument too many");
  assertRejected(["-C", "x", "--session", "s.mcs", "1", "p"], "-C and --session cannot be combined");
});

test("after `--` nothing is an option, and an unknown command has a suggestion", () => {
  const { status, stderr } = runMcs4("test", "--", "--help", "b", "c");
  assert.deepEqual({ status, stderr }, { status: 1, stderr: "test: cannot read --help: there is no such file\n" });
  assert.deepEqual(runMcs4("tset"), {
    status: 2, stdout: "", stderr: "mcs4: there is no command tset; did you mean test? mcs4 help lists the commands\n",
  });
});
