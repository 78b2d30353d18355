// Tests the page's support for programs: the words of a line, errors, completion, help, and the `asm` texts that load a program into ROM.
import assert from "node:assert/strict";
import { readFileSync } from "node:fs";
import { test } from "node:test";
import { editDistance, findSimilarWords } from "../core/text/similar_words.js";
import { formatQuantity } from "../core/bench/numbers.js";
import { createProgramTexts, describeAssembledProgram } from "../core/text/asm_texts.js";
import { findDefinedNames, splitStatement, tokenizeLine, wordAt } from "../core/text/assembly.js";
import { completeProgram } from "../core/text/completion.js";
import { readInstructions } from "../core/help/manual.js";
import { findProgramErrors, isProbablyNotProgram } from "../core/text/program_errors.js";
import { explainProgramLine } from "../core/text/program_words.js";
import { MAX_SENT_LENGTH, findSendingErrors, sentText } from "../core/text/sendable_text.js";
import { helpForProgram } from "../core/text/text_help.js";

// The manual's table of instructions, as page/build reads it.
const manual = readFileSync(new URL("../../docs/MANUAL.md", import.meta.url), "utf8");
const rows = manual.split("### The 45 instructions")[1].split("### What SRC")[0].split("\n").filter((line) => /^\| `[A-Z]/.test(line))
  .map((line) => line.slice(1, -1).split("|").map((cell) => cell.trim()));
const instructions = readInstructions([{ title: "The 45 instructions", tables: [{ caption: "", head: [], rows }] }]);
const programFactsOf = (text) => ({ instructions, names: findDefinedNames(text.split("\n")) });
const errorOf = (line, number = 30, text = line) => (explainProgramLine(line, number, programFactsOf(text)) || { message: "" }).message;
const wrongWordOf = (line, number = 30) => (explainProgramLine(line, number, programFactsOf(line)) || { word: { text: "" } }).word.text;

test("the manual's table has all 45 instructions", () => {
  assert.equal(instructions.size, 45);
});

test("a line is split into its parts", () => {
  const { label, head, operands, comment } = splitStatement("next:   ISZ R2 , loop ; again");
  assert.deepEqual([label.text, head.text, operands.map(({ text }) => text), comment], ["next", "ISZ", ["R2", "loop"], 22]);
  assert.equal(splitStatement("zero = 4").defines, true);
  assert.deepEqual(splitStatement(" DB 1,,2").operands.map(({ text }) => text), ["1", "", "2"]);
  assert.equal(splitStatement("; a: b").label, null);
});

test("the words of a line have colours, and a comment is one token", () => {
  const kinds = tokenizeLine("a: LDM 5 ; LDM", (word) => instructions.has(word)).map(({ kind }) => kind);
  assert.deepEqual(kinds, ["label", "instruction", "number", "comment"]);
  assert.deepEqual(tokenizeLine("LDX P0, 5G", () => false).map(({ kind }) => kind), ["unknown", "register", "unknown"]);
});

test("similar words are found", () => {
  assert.deepEqual([editDistance("strat", "start"), editDistance("LDX", "LDM"), editDistance("", "abc")], [1, 1, 3]);
  assert.deepEqual(findSimilarWords("strat", ["start", "stop", "far"]), ["start"]);
  assert.deepEqual(findSimilarWords("Loop", ["loop"]), ["loop"]);
  assert.deepEqual(findSimilarWords("xyz", ["start"]), []);
});

test("an unknown instruction has suggestions", () => {
  assert.match(errorOf("LDX 5"), /^LDX is not an instruction; .*LDM\?$/);
  assert.equal(errorOf("JMP there"), "JMP is not an instruction; JUN?");
  assert.equal(errorOf("begin"), "begin is not an instruction; a label has a colon: begin:");
  for (const statement of ["NOP", "jun x", "FIM P0, 3", "= 3 + 4"]) {
    assert.equal(errorOf(`x ${statement}`).includes("a label has a colon: x:"), !statement.startsWith("="), statement);
  }
  assert.equal(errorOf("zero EQU 4"), "define a name with =: zero = 4");
  assert.equal(errorOf("zero  set 0x10"), "define a name with =: zero = 0x10");
});

test("wrong operands are explained", () => {
  assert.equal(errorOf("FIM R0, 5"), "FIM takes a pair, P0 to P7");
  assert.equal(wrongWordOf("FIM R0, 5"), "R0");
  assert.equal(errorOf("FIM P0 5"), "FIM takes a pair, P0 to P7; write a comma between two operands");
  assert.equal(errorOf("INC R16"), "INC takes a register, R0 to R15");
  assert.equal(errorOf("NOP 1"), "NOP takes no operand");
  assert.equal(errorOf("LDM"), "LDM takes a value, 0 to 15");
  assert.match(errorOf("LDM 5, 6"), /no more$/);
  assert.match(errorOf("ADD: NOP"), /ADD is an instruction, so it cannot be a name/);
  assert.match(errorOf("a_name_that_is_long: NOP"), /at most 16 characters; this has 19/);
});

test("numbers in the syntax of other assemblers are explained", () => {
  assert.match(errorOf("LDM 0FH"), /hexadecimal is 0x0F$/);
  assert.match(errorOf("LDM $12"), /hexadecimal is 0x12$/);
  assert.match(errorOf("LDM 0b101"), /it is 5$/);
  assert.match(errorOf("LDM 'A'"), /the code of A is 0x41$/);
  assert.match(errorOf("LDM #5"), /without #: 5$/);
  assert.match(errorOf("LDM 1+2"), /there are no expressions/);
});

test("wrong names, values and addresses are explained", () => {
  assert.equal(errorOf("JUN strat", 32, "start: NOP\nJUN strat"), "strat is not defined; start?");
  assert.equal(errorOf("JUN FF", 32), "FF is not defined; 0xFF?");
  assert.equal(errorOf("a: NOP", 31, "a: NOP\na: NOP"), "a is already defined on line 1");
  assert.equal(errorOf("LDM 16", 33), "LDM takes a value, 0 to 15");
  assert.match(errorOf("JCN 4, far", 34), /^far is on another page; JCN reaches/);
});

/** Returns a stand-in for a bench that reports these errors and rejects the program with the error number `refusalNumber`. */
const createFakeBench = (errors, refusalNumber = 0) => {
  const requests = { sentTexts: [], refusalCount: 0 };
  return {
    requests,
    findLineErrors: async (benchText) => {
      requests.sentTexts.push(benchText);
      return errors;
    },
    findRefusal: async () => {
      requests.refusalCount += 1;
      return refusalNumber ? { number: refusalNumber, line: 0 } : null;
    },
  };
};

test("all errors have a message and a position; lines that cannot be sent are sent empty", async () => {
  const bench = createFakeBench([{ line: 1, number: 30 }, { line: 2, number: 32 }]);
  const text = "start: LDX 5\n FIM P0, strat\ncaf\u00e9: NOP\n";
  const result = await findProgramErrors(text, instructions, () => "", bench);
  assert.deepEqual(result.errors.map(({ line, from, words }) => [line, from, words.split(";")[0]]),
    [[1, 7, "LDX is not an instruction"], [2, 9, "strat is not defined"], [3, 3, "\u00e9 is not an ASCII character"]]);
  assert.deepEqual([result.isComplete, result.generalRefusal, bench.requests.refusalCount], [true, null, 0]);
  assert.deepEqual(bench.requests.sentTexts, ["start: LDX 5\nFIM P0, strat\n\n"]);
});

test("a program without errors is tried on the board; after 100 errors there can be more", async () => {
  const bench = createFakeBench([], 42);
  const result = await findProgramErrors("NOP\n", instructions, () => "", bench);
  assert.deepEqual(result, { errors: [], isComplete: true, generalRefusal: { number: 42, line: 0 } });
  const benchWithManyErrors = createFakeBench(Array.from({ length: 100 }, (_, index) => ({ line: index + 1, number: 30 })));
  assert.equal((await findProgramErrors("LDX\n".repeat(101), instructions, () => "", benchWithManyErrors)).isComplete, false);
});

test("a text is sent line by line, without comments and indentation", () => {
  assert.equal(sentText("; f\u00fcr\r\n loop: NOP\t; on\n\tJUN loop ", ";"), "\nloop: NOP\nJUN loop\n");
  assert.equal(sentText('  a = "#" # \u00e9\n', "#"), 'a = "#"\n');
  assert.equal(sentText("a = \"\"\"\n  b # \u00e9\n\"\"\"\n", "#"), "a = \"\"\"\n  b #  \n\"\"\"\n");
  assert.equal(sentText("", ";"), "");
  assert.equal(sentText("NOP\n\t", ";"), "NOP\n\n");
  assert.deepEqual(findSendingErrors("NOP\n\t", ";"), []);
  assert.equal(sentText("NOP\n . ; no end\n.\n", ";"), "NOP\n .\n.\n");
  assert.equal(sentText("\tNOP ; .\n\t. ; a dot alone\n  . \nx: ;\n ; y\n\n  LDM 1", ";"), "NOP\n .\n .\nx:\n\n\nLDM 1\n");
  assert.equal(sentText("a = 'x#\"' # \"d\"\ny = \"\\\"#\" # e\nz = \"no end # f\n", "#"), "a = 'x#\"'\ny = \"\\\"#\"\nz = \"no end # f\n");
});

test("lines that cannot be sent are reported with their positions", () => {
  /** @type {(text: string) => (number | string)[][]} */
  const errorsOf = (text) => findSendingErrors(text, ";").map(({ line, from, to, number }) => [line, from, to, number]);
  assert.deepEqual(errorsOf("  caf\u00e9: NOP ; \u00e9\n"), [[1, 5, 6, 14]]);
  assert.deepEqual(errorsOf("NOP\n.\nNOP\n"), [[2, 0, 1, 0]]);
  assert.equal(findSendingErrors("\ufeffNOP\n", ";")[0].words, "an invisible character (U+FEFF); delete it");
  assert.deepEqual(errorsOf("NOP\n . ; no end\n"), []);
  assert.deepEqual(errorsOf(`NOP\n  ${"x".repeat(256)}\n`), [[2, 257, 258, 12]]);
  assert.deepEqual(errorsOf(`NOP ;${"x".repeat(256)}\n`), []);
  assert.deepEqual(errorsOf(`${"NOP\n".repeat(4097)}`), [[4097, 0, 3, 13]]);
  assert.deepEqual(errorsOf(`${"\tNOP ; a comment\n".repeat(4096)}`), []);
});

test("words are completed", () => {
  const lines = ["loop: NOP", "      J", "  JUN lo", " FIM P", "; J"];
  const completionTexts = (line, column) => completeProgram(lines, line, column, instructions).list.map(({ text }) => text);
  assert.deepEqual(completionTexts(1, 7).sort(), ["JCN", "JIN", "JMS", "JUN"]);
  assert.deepEqual(completionTexts(2, 8), ["loop"]);
  assert.deepEqual(completionTexts(3, 6), ["P0", "P1", "P2", "P3", "P4", "P5", "P6", "P7"]);
  assert.deepEqual(completionTexts(4, 3), []);
});

test("words have help", () => {
  const lines = ["loop: LDM 5 ; LDM", " FIM P3, loop"];
  const helpAt = (line, column) => helpForProgram(lines, line, column, instructions, () => "");
  assert.equal(helpAt(0, 7), "LDM d: 1 word, 1 cycle. Load immediate: d into ACC. The carry does not change.");
  assert.match(helpAt(1, 5), /^P3: the pair of R6/);
  assert.equal(helpAt(1, 10), "loop: defined on line 1.");
  assert.equal(helpAt(0, 15), "");
  assert.deepEqual(wordAt("a loop", 3), { text: "loop", from: 2, to: 6 });
});

test("a program is loaded into ROM with zeros elsewhere, in one text if possible", () => {
  assert.deepEqual(createProgramTexts("NOP\n", []), ["NOP\n"]);
  assert.deepEqual(createProgramTexts("NOP\n", [5, 6, 9]), ["NOP\nORG 0x005\nDB 0,0\nORG 0x009\nDB 0\n"]);
  const addresses = [...Array(4095).keys()].map((index) => index + 1);
  const [onlyText] = createProgramTexts("NOP\n", addresses);
  assert.ok(onlyText.length <= MAX_SENT_LENGTH && onlyText.split("\n").every((line) => line.length <= 255));
  assert.equal(onlyText.split("DB").slice(1).join("").split(/[,\n]/).filter((word) => word.trim() === "0").length, 4095);
  const longProgram = `${"; long\n".repeat(2300)}NOP\n`;
  assert.deepEqual(createProgramTexts(longProgram, addresses).map((text) => text.length <= MAX_SENT_LENGTH), [true, true]);
  assert.equal(createProgramTexts(longProgram, addresses)[1], longProgram);
});

test("the message about assembled bytes names the bytes that stay in ROM", () => {
  assert.equal(describeAssembledProgram({ size: 3, remainingAddresses: [0x41, 0x42] }, "012"),
    "3 bytes assembled. 2 bytes that the program does not replace stay in ROM, from 0x041. The counter stays at 012; nothing was reset.");
  assert.deepEqual(
    [formatQuantity(1, "byte"), formatQuantity(0, "byte"), formatQuantity(1543, "cycle"),
      formatQuantity(2, "property is", "properties are")],
    ["1 byte", "0 bytes", "1,543 cycles", "2 properties are"]);
});

test("a text with an error in each line of code is probably not a program", () => {
  const createErrors = (...lines) => lines.map((line) => ({ number: 30, line, from: 0, to: 1, words: "" }));
  assert.equal(isProbablyNotProgram("hello there\n\n; a remark\nand more\n",
    { errors: createErrors(1, 4), isComplete: true, generalRefusal: null }),
    true);
  assert.equal(isProbablyNotProgram("hello there\n NOP\n", { errors: createErrors(1), isComplete: true, generalRefusal: null }), false);
  // The search for errors stops after a maximum number of errors.
  const longText = "prose\n".repeat(500);
  const errors = createErrors(...Array.from({ length: 20 }, (_, line) => line + 1));
  assert.equal(isProbablyNotProgram(longText, { errors, isComplete: false, generalRefusal: null }), true);
  assert.equal(isProbablyNotProgram(`NOP\n${longText}`, { errors: createErrors(2, 3), isComplete: false, generalRefusal: null }), false);
  for (const textWithoutCode of ["", "; a remark\n"]) {
    assert.equal(isProbablyNotProgram(textWithoutCode, { errors: [], isComplete: true, generalRefusal: null }), false);
  }
});
