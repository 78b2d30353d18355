import assert from "node:assert/strict";
import { test } from "node:test";
import { checksum } from "../core/session/checksum.js";
import { InvalidProject, isProject, projectText, readProject, tooLongMessage } from "../core/session/project_file.js";
import { parseBreakpoints, splitProject, parseWatchLines } from "../core/session/project_parts.js";

const SESSION_SIZE = 163856;
const encode = (text) => new TextEncoder().encode(text);

function createProject(texts = {}) {
  const file = new Uint8Array(SESSION_SIZE);
  file.set(encode("MCS4BEN1"));
  file[SESSION_SIZE - 1] = 0xfe;
  return { name: "a lock", boardText: "# b\n", programText: "; p\n", testText: "", propertiesText: "", file, ...texts };
}

function parse(text) {
  return readProject(encode(text), SESSION_SIZE);
}

test("the checksum is that of the command `cksum`", () => {
  // The checksum that the command `cksum` prints for empty input.
  assert.equal(checksum(encode("")), 4294967295);
  assert.equal(checksum(encode("hello\n")), 3015617425);
  assert.equal(checksum(encode("123456789")), 930766865);
  assert.equal(checksum(new Uint8Array(300000)), 2913298395);
});

test("a project is a readable text", () => {
  const lines = projectText(createProject()).split("\n");
  assert.equal(lines[0], "fethsaim project 1");
  assert.match(lines[1], /^cksum \d+$/);
  assert.match(lines[2], /^# /);
  assert.deepEqual(lines.slice(3), ["name a lock", "wire", "# b", ".", "asm", "; p", ".", "session 163856",
    "00000 4d43533442454e310000000000000000", "28000 000000000000000000000000000000fe", ".", "end", ""]);
});

test("the tests follow the program, if there are any", () => {
  const text = projectText(createProject({ testText: "test one\n  run 1" }));
  const lines = text.split("\n");
  const expected = ["name a lock", "unended test", "wire", "# b", ".", "asm", "; p", ".", "test", "test one", "  run 1"];
  assert.deepEqual(lines.slice(3, 14), expected);
  assert.equal(parse(text).testText, "test one\n  run 1");
  assert.equal(parse(text.replace(/^cksum.*\n/m, "").replace("\ntest one", "\ntest two")).testText, "test two\n  run 1");
});

test("a written project is read back unchanged, for all kinds of texts", () => {
  for (const text of ["", "\n", "NOP", "NOP\n", "a\n\n", ".\n..\n...", ".", "\tx \n.y\n", "wire\n.\nasm\n", "; f\u00fcr \u{1f600}\n"]) {
    const allTexts = { boardText: text, programText: text, testText: text, propertiesText: text };
    for (const texts of [{ boardText: text }, { programText: text }, { testText: text }, { propertiesText: text }, allTexts]) {
      const originalProject = createProject(texts);
      assert.deepEqual(parse(projectText(originalProject)), originalProject);
    }
  }
});

test("carriage returns at line ends and a byte order mark are ignored", () => {
  const text = projectText(createProject({ programText: "a\nb" }));
  assert.deepEqual(parse(`\uFEFF${text.replace(/\n/g, "\r\n")}`), createProject({ programText: "a\nb" }));
  assert.equal(projectText(createProject({ programText: "a\r\nb\r" })), text);
});

test("a project is detected by its first bytes", () => {
  assert.equal(isProject(encode(projectText(createProject()))), true);
  assert.equal(isProject(encode(`\uFEFF${projectText(createProject())}`)), true);
  assert.equal(isProject(encode("MCS4BEN1")), false);
  assert.equal(isProject(new Uint8Array(0)), false);
  assert.equal(isProject(Uint8Array.of(255, 254, 0, 200)), false);
});

test("a text that is too long for the editors is rejected, and its project is not saved", () => {
  const boardText = `#${" ".repeat(65535)}\n`;
  const message = "the board's text has 65,537 characters; at most 65,536 are accepted";
  assert.throws(() => parse(projectText(createProject({ boardText }))), { message });
  assert.equal(tooLongMessage({ boardText, programText: "" }), message);
  assert.equal(tooLongMessage({ boardText: boardText.slice(1), programText: "x".repeat(65536) }), "");
  assert.match(tooLongMessage({ boardText: "", programText: "x".repeat(65537) }), /^the source has 65,537 characters/);
});

test("each truncated project is rejected with a reason", () => {
  const text = projectText(createProject());
  for (let length = 0; length < text.length; length++) {
    assert.throws(() => parse(text.slice(0, length)), { message: /cut off|not a project/ });
  }
});

test("a project with any single changed byte is rejected", () => {
  const bytes = encode(projectText(createProject()));
  for (let index = 0; index < bytes.length; index++) {
    const changedBytes = bytes.slice();
    changedBytes[index] ^= 1;
    assert.throws(() => readProject(changedBytes, SESSION_SIZE), InvalidProject, `byte ${index}`);
  }
});

test("an edited project is accepted without its checksum", () => {
  const text = projectText(createProject()).replace("; p\n", "; p\n\tNOP\n");
  assert.throws(() => parse(text), /was edited/);
  assert.equal(parse(text.replace(/^cksum.*\n/m, "")).programText, "; p\n\tNOP\n");
});

test("errors in a project without a checksum are reported with their lines", () => {
  const text = projectText(createProject()).replace(/^cksum.*\n/m, "");
  const cases = [
    ["project 1", "project 2", /version 2/],
    ["name a lock", "nome a lock", /line 3 .* head/],
    ["wire\n", "wire it\n", /line 4 .* head/],
    ["asm\n", "asm it\n", /line 7 .* `asm`/],
    ["session 163856", "session 12", /line 10 .* `session 163856`/],
    ["00000 4d", "00000 4D", /line 11 .* not a line of a session/],
    ["28000 0000", "28010 0000", /line 12 .* not a line of a session/],
    ["\n.\nend\n", "\nend\n", /after `session 163856` has no end/],
    ["\n.\nend\n", "\n.\nmore\nend\n", /end of the file/],
  ];
  for (const [from, to, message] of cases) assert.throws(() => parse(text.replace(from, to)), message);
  assert.throws(() => readProject(Uint8Array.of(...encode("fethsaim project 1\n"), 255), SESSION_SIZE), /UTF-8/);
  assert.throws(() => readProject(new Uint8Array((4 << 20) + 1), SESSION_SIZE), /more bytes/);
});

test("breakpoints are in the head of the project, and are read back unchanged", () => {
  const breakpoints = [
    { line: 14, address: 15, isOn: false, condition: 'r4 = 7 and lamp "a\\b" on', from: 5, note: "R4 is {r4}" },
    { line: 0, address: 0x7FF, isOn: true, condition: "", from: 1, note: "" },
    { line: 3, address: -1, isOn: true, condition: "", from: 1, note: "here" },
  ];
  const text = projectText(createProject({ breakpoints }));
  assert.deepEqual(text.split("\n").filter((line) => line.startsWith("break")), [
    'break line 14 at 0x00F off from 5 if "r4 = 7 and lamp \\"a\\\\b\\" on" log "R4 is {r4}"', "break at 0x7FF", 'break line 3 log "here"',
  ]);
  assert.deepEqual(parse(text).breakpoints, breakpoints);
  assert.equal(parse(projectText(createProject({ breakpoints: [] }))).breakpoints, undefined);
  for (const invalidLine of ["break", "break here", "break line x", "break line 3 if r4", "break at 0x12"]) {
    const changedText = text.replace(/\ncksum .*/, "").replace("break at 0x7FF", invalidLine);
    assert.throws(() => parse(changedText), /must be a header line: `name`, `unended`, `break`/);
  }
});

test("watches are in the head of the project, and are read back unchanged", () => {
  const watched = ["count = R5", "digit = ram 0 0x12", "P2"];
  const text = projectText(createProject({ watched, breakpoints: [] }));
  assert.deepEqual(text.split("\n").slice(3, 7), ["name a lock", "value count = R5", "value digit = ram 0 0x12", "value P2"]);
  assert.deepEqual(parse(text).watched, watched);
  assert.equal(parse(projectText(createProject({ watched: [] }))).watched, undefined);
  for (const invalidLine of ["value", "value ", "values x"]) {
    assert.throws(() => parse(text.replace(/\ncksum .*/, "").replace("value P2", invalidLine)), /a header line: .* `break`, `value`/);
  }
});

test("a project is split into the files of a folder, which can be parsed again", () => {
  const breakpoints = parseBreakpoints('break line 14 at 0x00F off from 5 if "r4 = 7" log "R4 is {r4}"\r\nbreak at 0x000\n');
  const watched = parseWatchLines("count = R5\ndigit = ram 0 0x12");
  const wholeProject = createProject({ breakpoints, watched, testText: "test one\n" });
  const parts = new Map(splitProject(wholeProject).map(({ name, content }) => [name, content]));
  const names = ["mcs4.toml", "board.toml", "program.asm", "program.test", "breakpoints", "values", "session.mcs", "name"];
  assert.deepEqual([...parts.keys()], names);
  assert.match(parts.get("mcs4.toml"), /^# .*\nboard = "board.toml"\nprogram = "program.asm"\ntests = \["program.test"\]\n$/);
  assert.deepEqual([parseBreakpoints(parts.get("breakpoints")), parseWatchLines(parts.get("values"))], [breakpoints, watched]);
  assert.deepEqual([parts.get("name"), parts.get("board.toml"), parts.get("session.mcs")], ["a lock\n", "# b\n", wholeProject.file]);
  assert.throws(() => parseBreakpoints("break line 1\nbreak\n"), /line 2 is not a breakpoint/);
  assert.throws(() => parseBreakpoints("break line 1\n".repeat(257)), /it has 257 breakpoints, more than a project can have \(256\)/);
  assert.throws(() => parseWatchLines("a = R1\n \n"), /line 2 is empty/);
});

test("a text that is too long for the editors is read only on request; a text with NUL bytes is always rejected", () => {
  const longText = projectText(createProject({ programText: "; a remark\n".repeat(7000) }));
  assert.throws(() => parse(longText), /the source has 77,000 characters/);
  assert.equal(readProject(encode(longText), SESSION_SIZE, true).programText.length, 77000);
  assert.throws(() => parse(projectText(createProject({ boardText: "\0" }))), /NUL bytes/);
  const textWithExtraLine = projectText(createProject()).replace(/cksum \d+\n/, "").replace("\nend\n", "\nmore\nend\n");
  assert.throws(() => parse(textWithExtraLine),
    new RegExp(`line ${textWithExtraLine.split("\n").indexOf("more") + 1} of the project must be the end of the file`));
});
