// Tests the history of prompts: a private file of the user, which several prompts can write at the same time.
import assert from "node:assert/strict";
import { spawn } from "node:child_process";
import { chmodSync, existsSync, mkdtempSync, readFileSync, rmSync, statSync, symlinkSync, writeFileSync } from "node:fs";
import { tmpdir } from "node:os";
import { join } from "node:path";
import { test } from "node:test";
import { PromptHistory } from "../node/prompt_history.mjs";

const MODULE = new URL("../node/prompt_history.mjs", import.meta.url).href;

/** Runs an action with a new temporary folder. */
async function withFolder(action) {
  const folder = mkdtempSync(join(tmpdir(), "history."));
  try {
    await action(folder, join(folder, "mcs4/history"));
  } finally {
    rmSync(folder, { recursive: true });
  }
}

test("lines are stored, the newest first, without repetitions", () => withFolder((folder, file) => {
  const env = { XDG_STATE_HOME: folder };
  const firstHistory = new PromptHistory(env);
  for (const line of ["a", "b", "b", " ", "", "a", "x".repeat(1001)]) firstHistory.add(line);
  assert.equal(readFileSync(file, "utf8"), "a\nb\na\n");
  const secondHistory = new PromptHistory(env);
  assert.deepEqual(secondHistory.lines, ["a", "b", "a"]);
  secondHistory.add("a");
  assert.equal(readFileSync(file, "utf8"), "a\nb\na\n");
  assert.equal(statSync(file).mode & 0o777, 0o600);
  chmodSync(file, 0o666);
  secondHistory.add("c");
  assert.equal(statSync(file).mode & 0o777, 0o600);
}));

test("lines with control characters are omitted", () => withFolder((folder, file) => {
  new PromptHistory({ XDG_STATE_HOME: folder }).add("seq");
  writeFileSync(file, "one\n\x1b[Htwo\nthree\u202e\n\n\tfour\n");
  assert.deepEqual(new PromptHistory({ XDG_STATE_HOME: folder }).lines, ["\tfour", "one"]);
}));

test("without a usable state folder there is no history", () => withFolder((folder) => {
  for (const env of [{}, { XDG_STATE_HOME: "state" }, { HOME: "" }, { XDG_STATE_HOME: "/proc/none" }]) {
    const history = new PromptHistory(env);
    history.add("seq");
    assert.deepEqual([history.lines, history.name], [[], ""], JSON.stringify(env));
  }
  const history = new PromptHistory({ HOME: folder });
  history.add("seq");
  assert.ok(existsSync(join(folder, ".local/state/mcs4/history")));
  // The path of the history file leads to a device or a folder.
  for (const target of ["/dev/null", folder]) {
    rmSync(join(folder, ".local/state/mcs4/history"));
    symlinkSync(target, join(folder, ".local/state/mcs4/history"));
    assert.equal(new PromptHistory({ HOME: folder }).name, "");
  }
}));

test("simultaneous prompts lose no lines, even while a long file is shortened", () => withFolder(async (folder, file) => {
  new PromptHistory({ XDG_STATE_HOME: folder }).add("first");
  writeFileSync(file, Array.from({ length: 1300 }, (_, at) => `old ${at} ${".".repeat(190)}\n`).join(""));
  const script = `import { PromptHistory } from "${MODULE}";
    for (let at = 0; at < 100; at++) {
      const history = new PromptHistory({ XDG_STATE_HOME: process.argv[1] });
      history.add(\`new \${process.argv[2]} \${at} \${".".repeat(180)}\`);
    }`;
  const exitStatuses = [...Array(4).keys()].map((index) => new Promise((resolve) => {
    spawn(process.execPath, ["--input-type=module", "-e", script, folder, String(index)]).on("close", resolve);
  }));
  assert.deepEqual(await Promise.all(exitStatuses), [0, 0, 0, 0]);
  const lines = readFileSync(file, "utf8").trimEnd().split("\n");
  assert.equal(lines.filter((line) => line.startsWith("new ")).length, 400);
  assert.ok(lines.every((line) => /^(old \d+|new \d \d+) \.+$/.test(line)));
  assert.ok(lines.length < 1300 && !existsSync(`${file}.lock`));
}));
