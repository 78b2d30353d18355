import assert from "node:assert/strict";
import { test } from "node:test";
import { NO_BYTE, parseRomBytes } from "../core/bench/rom_bytes.js";
import { readBytes, readHex, writeHex } from "../core/bench/rom_image.js";
import { readOpenedFile } from "../core/session/opened_file.js";
import { RomFiles } from "../core/session/rom_files.js";
import { createByteTexts } from "../core/text/asm_texts.js";

const encode = (/** @type {string} */ text) => new TextEncoder().encode(text);
const openFile = (/** @type {string} */ name, /** @type {string} */ text) => readOpenedFile(name, encode(text));

const NO_TEXTS = { board: null, program: null, tests: null, properties: null, lines: "" };

test("the kind of a file is determined by its name and its first bytes", () => {
  assert.equal(openFile("any", "fethsaim project 1\n").kind, "project");
  assert.equal(openFile("any", "MCS4BEN1\u0000\u0000").kind, "session");
  assert.equal(openFile("short.mcs", "x").kind, "session");
  assert.deepEqual(openFile("lock.asm", " LDM 1\n"), { kind: "texts", texts: { ...NO_TEXTS, program: " LDM 1\n" } });
  assert.deepEqual(openFile("b.toml", "# empty\n"), { kind: "texts", texts: { ...NO_TEXTS, board: "# empty\n" } });
  assert.deepEqual(openFile("b.txt", "[[rom]]\nchip = 0\n").texts, { ...NO_TEXTS, board: "[[rom]]\nchip = 0\n" });
  const tests = "# It lights.\n\ntest one\n  run 10\n";
  assert.deepEqual(openFile("lamps.test", tests).texts, { ...NO_TEXTS, tests });
  assert.equal(openFile("notes", tests).texts.tests, tests);
  const properties = "never lamp 0 on\n";
  assert.deepEqual(openFile("lamps.props", properties).texts, { ...NO_TEXTS, properties });
  assert.equal(openFile("notes", "test 0\nrun 10\n").texts.tests, null);
  assert.deepEqual(openFile("notes", "\ufeffLDM 1\r\n").texts, { ...NO_TEXTS, program: "LDM 1\r\n", isGuess: true });
});

test("a file of session lines is split into a board, a program and other lines", () => {
  const { texts } = openFile("lamps.txt", "wire\n[[rom]]\n.\nasm\nNOP\n..\n.\npress 9 7\nmap\nx\n.\nrun 10\n");
  assert.deepEqual(texts, { ...NO_TEXTS, board: "[[rom]]\n", program: "NOP\n..\n", lines: "press 9 7\nmap\nx\n.\nrun 10\n" });
});

test("Latin-1 letters in a comment are read", () => {
  assert.equal(readOpenedFile("a.asm", Uint8Array.of(59, 0xfc, 10)).texts.program, ";\u00fc\n");
});

test("files that the bench cannot use are rejected with a reason", () => {
  const picture = Uint8Array.of(137, 80, 78, 71, 13, 10, 26, 10, 0);
  assert.throws(() => readOpenedFile("a.png", picture), /^Error: not a text, a session or a project; supported are projects/);
  assert.throws(() => openFile("a.jpg", "no session at all"), /^Error: not a kind of text that the bench has; supported are projects/);
  assert.throws(() => openFile("a.asm", "\n"), /^Error: it is empty; supported are projects/);
  assert.throws(() => openFile("a.asm", "x".repeat(65537)), /a text of 65,537 characters; at most 65,536 are accepted/);
  assert.throws(() => openFile("a.s19", "S1130000285F245F2212226A000424290008237C2A\n"), /no last record \(S9\)/);
  const image = openFile("a.s19", "S1130000285F245F2212226A000424290008237C2A\nS9030000FC\n");
  assert.deepEqual([image.kind, [...image.bytes.slice(0, 3)]], ["image", [0x28, 0x5f, 0x24]]);
});

test("Intel HEX is read and written", () => {
  const text = ":03000000D1E2F05A\n:00000001FF\n";
  const image = readHex(text);
  assert.deepEqual([...image.subarray(0, 4)], [0xd1, 0xe2, 0xf0, NO_BYTE]);
  assert.equal(writeHex(image), text);
  assert.equal(openFile("x", text.replaceAll("\n", "\r\n")).kind, "image");
  const longImage = new Int16Array(4096).fill(NO_BYTE).fill(7, 256, 512);
  assert.deepEqual(readHex(writeHex(longImage)), longImage);
});

test("an invalid record is reported with its line", () => {
  /** @type {(text: string, message: RegExp) => void} */
  const assertRejected = (text, message) => assert.throws(() => readHex(text), message, text);
  assertRejected(":03000000D1E2F05B\n", /^Error: line 1: the checksum is 5B, but should be 5A$/);
  assertRejected("\n:0300", /^Error: line 2: a record has `:`, ten hexadecimal digits/);
  assertRejected(":02000000D1E2F05A\n", /^Error: line 1: it announces 2 bytes, but has 3$/);
  assertRejected(":03000000D1E2F05A\n", /no last record/);
  assertRejected(":00000001FF\n", /it has no byte/);
  assertRejected(":00000001FF\n:00000001FF\n", /line 2: a record after the last one/);
  assertRejected(":020FFF00D1E23D\n:00000001FF\n", /past the last address, FFF/);
  assertRejected(":01000000D12E\n:01000000D12E\n", /line 2: the address 000, which an earlier line already fills/);
  assertRejected(":020000021000EC\n", /type 02 with a value other than 0/);
  assertRejected(":0000000AF6\n", /type 0A, which has no meaning/);
  assertRejected("D1E2", /begins with `:`/);
});

test("a binary image begins at 000", () => {
  assert.deepEqual([...readBytes(Uint8Array.of(1, 2)).subarray(0, 3)], [1, 2, NO_BYTE]);
  assert.throws(() => readBytes(new Uint8Array(0)), /it has no byte/);
  assert.throws(() => readBytes(new Uint8Array(4097)), /it has 4,097 bytes, and ROM has 4,096/);
});

test("texts that put an image into ROM do not exceed the bench's limits", () => {
  const texts = createByteTexts(new Int16Array(4096).fill(255));
  assert.equal(texts.length, 2);
  assert.ok(texts.every((text) => text.length <= 16384 && text.split("\n").every((line) => line.length <= 255)));
  assert.equal(createByteTexts(readHex(":03000000D1E2F05A\n:00000001FF\n")).join(), "ORG 0x000\nDB 209,226,240\n");
});

test("an image is loaded into the ROMs of the board, and saved to a file", async () => {
  const board = ["board", "[[rom]]", "chip = 1", 'port = "0000"'];
  // The last line is for a ROM that the board does not have.
  const lines = [...Array(257).keys()].map((index) => `${(256 + index).toString(16).toUpperCase()} D1    LDM 1`);
  /** @type {string[]} */
  const actions = [];
  const rom = new RomFiles({
    ask: async (query) => (query === "board\n" ? board : lines),
    execute: async (actionLines) => {
      actions.push(actionLines);
      return "ok 1 bytes 1";
    },
    stop: async () => {
      actions.push("stop");
    },
  });
  await assert.rejects(rom.load("x.bin", readBytes(Uint8Array.of(1))), {
    message: "the board has no ROM 0, where the image has bytes (000): wire a [[rom]] with chip = 0",
  });
  assert.deepEqual(actions, []);
  const image = new Int16Array(4096).fill(NO_BYTE);
  image[256] = 209;
  assert.equal(await rom.load("x.hex", image), "1 byte of x.hex is in ROM, from 100; nothing was reset.");
  assert.deepEqual(actions, ["stop", "asm\nORG 0x100\nDB 209\n.\n"]);
  const file = await rom.readImage();
  assert.deepEqual([file.length, file[0], file[256]], [512, 0, 209]);
  assert.equal((await rom.readHex()).split("\n").length, 18);
  assert.equal(parseRomBytes(lines)[511], 209);
});
