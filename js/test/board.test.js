// Tests the page's messages about boards that the bench rejects. The error numbers are those of tools/lib/refusals.txt.
import assert from "node:assert/strict";
import { readFileSync } from "node:fs";
import { test } from "node:test";
import { parseRefusal } from "../core/bench/answers.js";
import { SIGNAL_LINE_NAMES, MAX_COLUMNS, MAX_PARTS, VALUE_RANGES, signalLines } from "../core/bench/board_form.js";
import { readErrors, readWiring } from "../core/bench/text_check_answers.js";
import { Engine } from "../core/engine/engine.js";
import { TextBench } from "../core/server/text_bench.js";
import { createBoardError } from "../core/text/board_error.js";
import { BoardReader, readBoardText } from "../core/text/board_reader.js";
import { completeBoard } from "../core/text/board_completion.js";
import { findCommentStart } from "../core/text/sendable_text.js";
import { readProjectToml } from "../core/project/project_toml.js";
import { openExample, pageModule } from "./page_session.js";
import { readBoardTables, helpForBoard, tableAt } from "../core/text/text_help.js";

// The manual's table of TOML keys, as page/build reads it.
const manual = readFileSync(new URL("../../docs/MANUAL.md", import.meta.url), "utf8");
const rows = manual.split("### The TOML keys")[1].split("###")[0].split("\n").filter((line) => /^\| [`|]/.test(line))
  .map((line) => line.slice(1, -1).split("|").map((cell) => cell.trim()));
const tables = readBoardTables([{ title: "The TOML keys", tables: [{ caption: "", head: [], rows }] }]);

const bench = new TextBench(new Engine(new globalThis.WebAssembly.Module(pageModule)));
const errorOf = (text) => {
  const error = bench.findBoardError(text);
  return error && createBoardError(text, error, tables, (number) => `words of ${number}`);
};
const describeError = (text) => {
  const error = errorOf(text);
  return error ? `${error.line}: ${error.number} ${error.words}` : "";
};
const errorTextOf = (text) => {
  const { line, from, to } = errorOf(text);
  return text.split("\n")[line - 1].slice(from, to);
};
const ROM = '[[rom]]\nchip = 0\nport = "iii0"\n';
const CHAIN = '[[chain]]\nclock = "rom0.0"\ndata = "rom0.0"\nchips = 1\n';

test("the boards of the examples have no errors", () => {
  for (const name of ["calculator", "three_lamps"]) {
    assert.equal(describeError(readFileSync(new URL(`../../examples/${name}/board.toml`, import.meta.url), "utf8")), "");
  }
});

test("answers to `wiring` and `errors` are parsed", () => {
  const noPart = { section: "", index: 0, key: "" };
  assert.equal(readWiring("wiring valid"), null);
  assert.deepEqual(readWiring("no 13"), { number: 13, line: 0, ...noPart });
  assert.deepEqual(readWiring("no 20 line 3"), { number: 20, line: 3, ...noPart });
  assert.deepEqual(readWiring("no 21 line 4 key lampe"), { number: 21, line: 4, ...noPart, key: "lampe" });
  assert.deepEqual(readWiring("no 23 line 1 rom"), { number: 23, line: 1, ...noPart, section: "rom" });
  assert.deepEqual(readWiring("no 25 line 6 lamp 2 key line"), { number: 25, line: 6, section: "lamp", index: 2, key: "line" });
  assert.deepEqual(readWiring("no 27 line 9 keys key columns"), { number: 27, line: 9, section: "keys", index: 0, key: "columns" });
  assert.deepEqual(parseRefusal("no 25 line 6 lamp 2 key line"), { number: 25, line: 6 });
  assert.deepEqual(readErrors(["errors 2", "error 2 31", "error 3 30"]), [{ line: 2, number: 31 }, { line: 3, number: 30 }]);
  assert.deepEqual(readErrors(["no 13"]), []);
});

test("the page's limits for boards are the limits of the bench", async () => {
  const calls = await openExample("three lamps");
  const refusalNumberOf = async (text) => (parseRefusal((await calls.serve(`wire\n${text}.\n`)).firstAnswer) || { number: 0 }).number;
  const rom = (chip, port = "0000") => `[[rom]]\nchip = ${chip}\nport = "${port}"\n`;
  const chain = (chips) => `[[chain]]\nclock = "rom8.0"\ndata = "rom8.1"\nchips = ${chips}\n`;
  const keys = (columns, values = {}) => {
    const keyValues = { chain: 0, first: 0, rows: 1, ...values };
    return `[keys]\n${Object.keys(keyValues).map((key) => `${key} = ${keyValues[key]}\n`).join("")}columns = [${columns.join(", ")}]\n`;
  };
  const column = '"rom7.0"';
  const roms = rom(7, "iiii") + rom(8);
  const boards = {
    "rom.chip": (value) => rom(value), "ram.bank": (value) => `[[ram]]\nbank = ${value}\nchips = 1\n`,
    "ram.chips": (value) => `[[ram]]\nbank = 0\nchips = ${value}\n`, "chain.chips": (value) => roms + chain(value),
    "keys.chain": (value) => roms + chain(1).repeat(4) + keys([column], { chain: value }),
    "keys.first": (value) => roms + chain(8) + keys([column], { first: value }),
    "keys.rows": (value) => roms + chain(1) + keys([column], { rows: value }),
  };
  assert.deepEqual(Object.keys(boards), Object.keys(VALUE_RANGES));
  for (const [key, { from, to }] of Object.entries(VALUE_RANGES)) {
    const refusalNumbers = [];
    for (const value of [from - 1, from, to, to + 1]) refusalNumbers.push(await refusalNumberOf(boards[key](value)));
    assert.deepEqual(refusalNumbers, [23, 0, 0, 23], key);
  }
  const boardsByCount = {
    rom: (count) => Array.from({ length: count }, (_, chip) => rom(Math.min(15, chip))).join(""),
    ram: (count) => Array.from({ length: count }, (_, bank) => boards["ram.bank"](Math.min(7, bank))).join(""),
    chain: (count) => roms + chain(1).repeat(count), lamp: (count) => roms + '[[lamp]]\nline = "rom8.0"\n'.repeat(count),
  };
  for (const [kind, maximum] of Object.entries(MAX_PARTS)) {
    assert.deepEqual([await refusalNumberOf(boardsByCount[kind](maximum)), await refusalNumberOf(boardsByCount[kind](maximum + 1))],
      [0, 27], kind);
  }
  const boardWithColumns = (count) => roms + chain(1) + keys(Array(count).fill(column));
  assert.deepEqual([await refusalNumberOf(boardWithColumns(MAX_COLUMNS)), await refusalNumberOf(boardWithColumns(MAX_COLUMNS + 1))],
    [0, 27]);
  const largestBoard = boardsByCount.rom(16) + boardsByCount.ram(8).replace(/chips = 1/g, "chips = 4") + chain(8).repeat(4);
  const boardWithLamp = (line) => `${largestBoard}[[lamp]]\nline = "${line}"\n`;
  for (const line of SIGNAL_LINE_NAMES) assert.equal(await refusalNumberOf(boardWithLamp(line)), 0, line);
  const unknownLines = ["rom16.0", "rom0.4", "rom01.0", "ram8.0.0", "ram0.4.0", "ram0.0.4", "chain4.0", "chain0.80", "chain0.00", "rom0",
    ""];
  for (const line of unknownLines) {
    assert.deepEqual([SIGNAL_LINE_NAMES.has(line), await refusalNumberOf(boardWithLamp(line))], [false, 23], line);
  }
  const lines = signalLines({ roms: [{ chip: 3, port: "i001" }], banks: [], chains: [] });
  assert.deepEqual(lines.map(({ name, isInput }) => `${name} ${isInput}`), ["rom3.0 false", "rom3.1 false", "rom3.2 false", "rom3.3 true"]);
});

test("texts that are not TOML are reported with their lines", () => {
  assert.equal(describeError("[[rom\n"), "1: 20 ] is missing: [[rom]]");
  assert.equal(describeError('[[rom]]\nchip 0\nport = "0000\n'), "2: 20 = is missing after chip");
  assert.equal(describeError("port = 0000\n"), '1: 20 a number has no leading zero; write a text in quotes: "0000"');
  assert.equal(describeError("[[rom]]\nport = iiii\n"), '2: 20 iiii is a text: write it in quotes: "iiii"');
  assert.equal(describeError('[[rom]]\nchip = 0\nchip = 1\nport = "0000"\n'), "3: 20 chip is already on line 2");
  // If the page's reader accepts a text but the bench rejects it, the message explains the bench's error number.
  assert.equal(describeError("[[rom]]\n[rom]\n"), "2: 20 words of 20");
});

test("wrong keys and values are reported", () => {
  assert.equal(describeError('[[rom]]\nchip = 16\nport = "0000"\n'), "2: 23 chip must be a unique number from 0 to 15");
  assert.equal(describeError('[[rom]]\nchip = "0"\nport = "0000"\n'), "2: 23 chip is a number: write 0 without quotes");
  assert.equal(errorTextOf('[[rom]]\nchip = 16\nport = "0000"\n'), "16");
  assert.equal(errorTextOf('[[rom]]\nchip = 1\nport = "oooo"\n'), '"oooo"');
  assert.equal(describeError("[[ram]]\nbank = 0\nchip = 1\n"), "3: 21 chip is not a key of ram; chips?");
  assert.deepEqual(errorOf("[[ram]]\nbank = 0\nchip = 1\n").quickFixTexts, ["chips"]);
  assert.equal(describeError("[[ram]]\nbank = 0\n"), "1: 22 this ram lacks chips");
  assert.equal(describeError("[[rmo]]\n"), "1: 21 rmo is not a part of a board; rom?");
  assert.deepEqual(errorOf("[[rmo]]\n").quickFixTexts, ["[[rom]]"]);
  assert.equal(describeError("speed = 3\n"), "1: 21 speed is not a part of a board, which has rom, ram, chain, keys, lamp");
  assert.equal(describeError("[[keys]]\n"), "1: 23 a board has one key matrix: [keys]");
  assert.equal(describeError("[rom]\nchip = 0\nport = \"0000\"\n"), "1: 23 there can be several: write [[rom]]");
  assert.equal(describeError("rom = [\n  { chip = 0, port = '1i0i' }, # one\n  { chip = 0x4D, port = '0000' },\n]\n"),
    "3: 23 chip must be a unique number from 0 to 15");
});

test("parts that the board lacks, and lines of the wrong direction, are reported", () => {
  const boardWithLamp = (line) => `${ROM}${CHAIN}[[ram]]\nbank = 2\nchips = 1\n[[lamp]]\nline = ${line}\n`;
  assert.equal(describeError(`${ROM}${ROM}`), "5: 24 chip 0 is already on line 1");
  assert.equal(describeError(boardWithLamp('"rom9.0"')), "12: 25 the board has no line rom9.0: no [[rom]] has chip = 9");
  assert.equal(describeError(boardWithLamp('"ram1.0.0"')), "12: 25 the board has no line ram1.0.0: no [[ram]] has bank = 1");
  assert.equal(describeError(boardWithLamp('"ram2.1.0"')), "12: 25 the board has no line ram2.1.0: bank 2 has only chip 0");
  assert.equal(describeError(boardWithLamp('"chain0.10"')), "12: 25 the board has no line chain0.10: chain 0 has bits 0 to 9");
  assert.equal(describeError(boardWithLamp('"chain1.0"')), "12: 25 the board has no chain 1: it has only chain 0");
  assert.equal(describeError(boardWithLamp('"led"')),
    '12: 23 led is not the name of a line; names are like "rom1.0", "ram0.0.3" and "chain0.5"');
  assert.equal(describeError(boardWithLamp('["rom0.0"]')), "12: 23 line must be a line that is not an input line");
  assert.equal(describeError(boardWithLamp("{}")), "12: 23 line must be a line that is not an input line");
  assert.equal(describeError(boardWithLamp('"rom0.1"')),
    "12: 26 rom0.1 is an input line (i in its ROM's port); a lamp needs an output line");
  assert.equal(describeError(`${ROM}${CHAIN.replace("rom0.0", "chain0.1")}`),
    "5: 26 chain0.1 is a bit of a chain; clock needs an output line of a ROM or a RAM chip");
  const boardWithMatrix = (count, columns) => `${ROM}${CHAIN}[keys]\nchain = 0\nfirst = 5\nrows = ${count}\ncolumns = ${columns}\n`;
  assert.equal(describeError(boardWithMatrix(6, '["rom0.1"]')), "11: 25 the rows need bits 5 to 10 of chain 0, which has bits 0 to 9");
  const boardText = boardWithMatrix(5, '["rom0.1", "rom0.0"]');
  assert.equal(describeError(boardText), "12: 26 rom0.0 is not an input line; a column needs a line of a ROM that is i in its port");
  assert.equal(errorTextOf(boardText), '"rom0.0"');
  assert.equal(errorTextOf(boardWithMatrix(5, '["rom0.1", "rom0.4"]')), '"rom0.4"');
  assert.equal(errorTextOf(boardWithMatrix(5, '["rom0.1", "rom7.1"]')), '"rom7.1"');
  assert.match(describeError(boardWithMatrix(5, '"rom0.1"')), /^12: 23 columns must be an array of 1 to 8 lines/);
  assert.equal(describeError(boardWithMatrix(5, `[${'"rom0.1", '.repeat(9)}]`)), "12: 27 a key matrix has at most 8 columns");
  assert.equal(describeError(`${ROM}${CHAIN.repeat(5)}`), "20: 27 a board has at most 4 [[chain]]");
});

test("the reader reports the line of each key", () => {
  const { entries } = readBoardText(`${ROM}# a comment\n`);
  assert.deepEqual(entries[0].keys.map(({ name, line, value }) => [name, line, value.inner]), [["chip", 2, 0], ["port", 3, "iii0"]]);
  assert.equal(findCommentStart('a = "#" # b', "#"), 8);
});

test("the keys of a board's tables are those of the manual", () => {
  assert.deepEqual([...tables].map(([table, keys]) => [table, [...keys.keys()].join()]),
    [["rom", "chip,port"], ["ram", "bank,chips"], ["chain", "clock,data,chips"], ["keys", "chain,first,rows,columns"], ["lamp", "line"]]);
  assert.deepEqual([tableAt(["[[rom]]", "c"], 1), tableAt(["rom = [", "  { chip = 0 },"], 1), tableAt(["# x"], 0)], ["rom", "rom", ""]);
  assert.equal(helpForBoard(["[[rom]]", "chip = 0"], 1, 2, tables), "chip of rom: a unique number from 0 to 15.");
  const completionTexts = (lines, line, column) => completeBoard(lines, line, column, tables).list.map(({ text }) => text);
  assert.deepEqual(completionTexts(["[[rom]]", "p"], 1, 1), ["port"]);
  assert.deepEqual(completionTexts(["[[r"], 0, 3), ["rom", "ram"]);
  assert.deepEqual(completionTexts(["[[rom]]", 'port = "i'], 1, 9), ['iiii"']);
});

test("values are completed with lines of the board, and an empty line with whole parts", () => {
  const board = ["[[rom]]", "chip = 0", 'port = "i000"', "[[ram]]", "bank = 0", "chips = 1", "[[chain]]", "clock = ", "data = \"rom0.1\"",
    "chips = 1", "[keys]", "chain = ", "columns = [", "  ", "]", "[[lamp]]", 'line = "chain0.', ""];
  const completionTexts = (line) => completeBoard(board, line, board[line].length, tables).list.map(({ text }) => text);
  assert.deepEqual(completionTexts(7), ['"rom0.0"', '"rom0.1"', '"rom0.2"', '"ram0.0.0"', '"ram0.0.1"', '"ram0.0.2"', '"ram0.0.3"']);
  assert.deepEqual(completionTexts(11), ["0"]);
  assert.deepEqual(completionTexts(13), ['"rom0.3"']);
  assert.deepEqual(completionTexts(16), [...Array(10).keys()].map((bit) => `chain0.${bit}"`));
  assert.equal(completeBoard(['[[lamp]]', 'line = "rom"'], 1, 11, tables).list.length, 0);
  const suggestions = completionTexts(17);
  assert.ok(suggestions.includes('[[rom]]\nchip = 1\nport = "0000"') && suggestions.includes('[[lamp]]\nline = "rom0.0"'));
  const [first] = completeBoard([""], 0, 0, tables).list;
  assert.equal(first.text, '[[rom]]\nchip = 0\nport = "0000"');
});

/** Returns how often the reader accesses the words of a board text while it parses the text. */
function countWordReads(text) {
  const reader = new BoardReader(text);
  let accessCount = 0;
  reader.words = new Proxy(reader.words, {
    get: (words, index) => {
      accessCount += 1;
      return words[index];
    },
  });
  reader.read();
  return accessCount;
}

test("reading a text takes a number of accesses that is proportional to its length", () => {
  for (const line of ["wire\n", "asm\n.\n", "x =\n", "x = [1,\n", "[[lamp]]\n", "a . b\n", "x = [\n", "{a = [1}\n"]) {
    const [shortCount, longCount] = [16384, 65536].map((size) => countWordReads(line.repeat(size / line.length)));
    assert.ok(shortCount > 1000 && longCount < 4.5 * shortCount, `${JSON.stringify(line)}: ${shortCount} and ${longCount} accesses`);
  }
});

test("up to 32 brackets and braces can be open; one more is an error in its line", () => {
  const errorsOf = (text) => readBoardText(text).errors.map(({ line, words }) => `${line}: ${words}`);
  const tooDeepMessage = "more than 32 brackets and braces are open here";
  assert.deepEqual(errorsOf(`\nx = ${"[".repeat(32)}${"]".repeat(32)}\n`), []);
  assert.deepEqual(errorsOf(`\nx = ${"[".repeat(33)}${"]".repeat(33)}\ny = 1 2\n`), [`2: ${tooDeepMessage}`, "3: the line must end here"]);
  assert.deepEqual(errorsOf(`x = ${"[\n".repeat(16300)}`).slice(0, 1), [`33: ${tooDeepMessage}`]);
  assert.deepEqual(errorsOf(`x = ${"{a = [".repeat(10000)}`), [`1: ${tooDeepMessage}`]);
  const [error] = readProjectToml(`board = "b"\nprogram = ${"[".repeat(16300)}`).errors;
  assert.deepEqual([error.line, error.words], [2, tooDeepMessage]);
});
