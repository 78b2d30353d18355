// Tests that control characters in files from other people never reach the terminal.
import assert from "node:assert/strict";
import { spawnSync } from "node:child_process";
import { mkdtempSync, rmSync, writeFileSync } from "node:fs";
import { tmpdir } from "node:os";
import { join } from "node:path";
import { after, test } from "node:test";
import { escapeControls } from "../core/text/control_escapes.js";

const folder = mkdtempSync(join(tmpdir(), "escaped."));
after(() => rmSync(folder, { recursive: true }));
const MCS4 = new URL("../../mcs4", import.meta.url).pathname;
const CONTROL_TEXT = "\x1b]0;PWNED\x07\x1b[2J\x9b2J\u202e";
const ESCAPED_TEXT = "\\x1B]0;PWNED\\x07\\x1B[2J\\x9B2J\\u202E";
// eslint-disable-next-line no-control-regex
const CONTROL_CHARACTERS = /[\u0000-\u0008\u000b-\u001f\u007f-\u009f\u202e]/;

test("control characters are escaped, and all other characters stay", () => {
  assert.equal(escapeControls(CONTROL_TEXT), ESCAPED_TEXT);
  assert.equal(escapeControls("a\tb\n\u00e9 \u{1F600} \\"), "a\tb\n\u00e9 \u{1F600} \\");
});

test("source lines, labels, commands and file names are shown with escaped control characters", () => {
  const [board, program, properties] = ["board.toml", "p.asm", "p.props"].map((name) => join(folder, name));
  writeFileSync(board, "[[rom]]\nchip = 0\nport = \"0000\"\n");
  writeFileSync(program, `start:  LDM 1 ; ${CONTROL_TEXT}\n        JUN start\n`);
  writeFileSync(properties, `test\nnever acc 5${CONTROL_TEXT}\n`);
  const run = (name, args, input = "") => spawnSync(MCS4, [name, ...args], { encoding: "utf8", input });
  const debugRun = run("debug", [board, program], `list\nstep\nprint ${CONTROL_TEXT}\n`);
  const exploreRun = run("explore", [board, program, properties, "--seconds", "1"]);
  const missingFileRun = run("debug", [board, join(folder, `none${CONTROL_TEXT}`)]);
  const texts = { list: debugRun.stdout, print: debugRun.stderr, explore: exploreRun.stderr, name: missingFileRun.stderr };
  for (const [source, text] of Object.entries(texts)) {
    assert.ok(text.includes(ESCAPED_TEXT) && !CONTROL_CHARACTERS.test(text), `${source}: ${JSON.stringify(text)}`);
  }
});
