// Tests the session prompt on the bench's module: lines, texts, files, the reasons why lines are rejected, help, and the completion of
// lines.
import assert from "node:assert/strict";
import { test } from "node:test";
import { SessionPrompt } from "../core/prompt/bench_prompt.js";
import { wrapText, wrapMessage } from "../core/text/line_wrapping.js";
import { Engine } from "../core/engine/engine.js";
import { readPageData } from "../node/page_parts.mjs";
import { describeRefusal } from "../node/rejected_texts.mjs";
import { findTextErrors } from "../node/text_errors.mjs";
import { pageModule } from "./page_session.js";

const engine = new Engine(new globalThis.WebAssembly.Module(pageModule));
const { manual } = readPageData();
const BOARD = `[[rom]]
chip = 0
port = "iiii"
[[ram]]
bank = 0
chips = 1
[[chain]]
clock = "ram0.0.0"
data = "ram0.0.1"
chips = 1
[keys]
chain = 0
first = 0
rows = 2
columns = ["rom0.0", "rom0.1"]
`;

/**
 * Returns a prompt for a new session with files, and the function `ask`, which enters lines and returns the prompt's output. Messages other
 * than answers are in parentheses.
 */
function createPrompt(files = {}) {
  const state = engine.begin();
  let output = [];
  const prompt = new SessionPrompt({
    serve: async (input) => {
      const { answers } = engine.serve(state, input, state);
      output.push(...answers);
      return answers[0] || "";
    },
    ask: async (line) => engine.ask(state, `${line}\n`).answers,
    print: (text) => output.push(...text.split("\n").map((line) => `(${line})`)),
    printError: (text) => output.push(...text.split("\n").map((line) => `(${line})`)),
    read: (name) => {
      if (files[name] === undefined) throw new Error(`cannot read ${name}: there is no such file`);
      return files[name];
    },
    files: (prefix) => Object.keys(files).filter((name) => name.startsWith(prefix)),
    findErrors: (word, text, board) => findTextErrors(word, text, board, { manual, wordsOf: describeRefusal }),
    messageOf: describeRefusal,
    manual: () => manual,
  });
  const ask = async (...lines) => {
    output = [];
    for (const line of lines) await prompt.enterLine(line);
    return output;
  };
  return { prompt, ask };
}

test("lines and typed texts are served, and their errors explained", async () => {
  const { prompt, ask } = createPrompt();
  assert.deepEqual(await ask("", "   ", "seq", "test 1"), ["seq 0", "ok 1"]);
  assert.equal(prompt.label, "mcs4> ");
  assert.deepEqual(await ask("wire"), []);
  assert.equal(prompt.label, "wire> ");
  assert.deepEqual(await ask(...BOARD.split("\n").slice(0, -1), "."), ["ok 2"]);
  assert.deepEqual(await ask("press 2 0", "poke ram.1.0 1", "break 0x300", "poke rom.256 1", "run 0", "run x"), [
    "no 41", "(the board has no key 2 0; its rows are 0 to 1, its columns 0 to 1)", "no 43", "(the board has no RAM at ram.1.0)", "ok 3",
    "no 42", "(the board has no ROM with the address of rom.256; board shows its chips)",
    "no 44", "(a run takes 1 to 100,000 cycles, not 0)", "no 11", "(x is not a number from 0 to 4,294,967,295)",
  ]);
  assert.deepEqual(await ask("asm", "a: JMP b", "b: LDN 17", "."), [
    "no 30 line 1", "(line 1: JMP is not an instruction; JUN?)", "(    a: JMP b)", "(line 2: LDN is not an instruction; LD or LDM?)",
    "(    b: LDN 17)",
  ]);
  const [, message] = await ask("asm", "; \u00e9", ".");
  assert.match(message, /a byte that is neither a tab nor a printable ASCII character/);
});

test("an unfinished text can be dropped", async () => {
  const { prompt, ask } = createPrompt();
  await ask("asm", " NOP");
  assert.equal(prompt.unfinishedText, "asm\n NOP\n");
  assert.equal(prompt.discardUnfinished(), "the text of asm is dropped");
  assert.deepEqual([prompt.discardUnfinished(), prompt.unfinishedText, prompt.label], ["", "", "mcs4> "]);
  assert.deepEqual(await ask("quit"), []);
  assert.equal(prompt.isEnded, true);
});

test("files can replace typed texts, without their comments", async () => {
  const { ask } = createPrompt({
    "b.toml": `# \u00e9\n${BOARD}`, "p.asm": "; \u00e9\nloop: JUN loop ; again\n", "bad.asm": "\n JMP 3\n",
    "bad.toml": "\n\n[[lamp]]\nline = 'led'\n", "far.asm": " ORG 0x300\n NOP\n",
  });
  assert.deepEqual(await ask("wire b.toml", "asm p.asm", "map p.asm"), [
    "ok 1", "ok 2 bytes 2", "map lines 2 names 1", "line 1 000 0", "line 2 000 2", "name loop 000",
  ]);
  assert.deepEqual(await ask("asm bad.asm"), ["no 30 line 2", "(bad.asm: line 2: JMP is not an instruction; JUN?)", "(     JMP 3)"]);
  assert.deepEqual(await ask("errors bad.asm", "errors p.asm"), [
    "errors 1", "error 2 30", "(bad.asm: line 2: JMP is not an instruction; JUN?)", "(     JMP 3)", "errors 0",
  ]);
  assert.deepEqual(await ask("wiring b.toml", "wiring bad.toml"), [
    "wiring valid", "no 23 line 3 lamp 1 key line",
    '(bad.toml: line 4: led is not the name of a line; names are like "rom1.0", "ram0.0.3" and "chain0.5")', "(    line = 'led')",
  ]);
  assert.match((await ask("asm far.asm"))[1], /^\(far\.asm: line 2: /);
  assert.deepEqual(await ask("asm none"), ["(cannot read none: there is no such file)"]);
});

test("lines of a file are served up to an error", async () => {
  const { prompt, ask } = createPrompt({
    one: "test 1\nsource two\nseq\n", two: "seq\nasm\n NOP\n.\npress 1\nseq\n", cut: "asm\n NOP\n", itself: "source itself\n",
    leave: "seq\nquit\nseq\n",
  });
  assert.deepEqual(await ask("source one", "seq"), [
    "ok 1", "seq 1", "no 42",
    "(two: line 3: this line is at 000, and the board has no ROM 0: wire a [[rom]] with chip = 0)", "(     NOP)", "seq 1",
  ]);
  assert.deepEqual((await ask("source cut")), ["(cut ends too soon; the text of asm is dropped)"]);
  assert.deepEqual(await ask("source itself"), ["(itself: line 1: source files can be nested at most 8 deep)"]);
  assert.deepEqual(await ask("source"), ["(source is written as: source FILE)"]);
  assert.deepEqual(await ask("source none"), ["(cannot read none: there is no such file)"]);
  assert.equal(prompt.sourceCommand.files.length, 0);
  await ask("source leave");
  assert.equal(prompt.isEnded, true);
});

test("help about lines, places and refusals", async () => {
  const { ask } = createPrompt();
  const helpLines = await ask("help");
  assert.ok(helpLines.every((line) => line.length < 82), "a line is too long");
  assert.deepEqual(await ask("help press"),
    ["(press r c: presses or releases the key in row r and column c, even if it is already down or up)"]);
  assert.deepEqual(await ask("help 44"), ["(no 44: a run needs 1 to 100,000 cycles)"]);
  assert.ok((await ask("help places")).includes("(  acc: the accumulator, 0 to 15)"));
  assert.ok((await ask("help poke")).includes("(  cy: the carry, 0 or 1)"));
  assert.deepEqual(await ask("help source"), ["(source FILE: serves the lines of a file, up to an error)"]);
  assert.deepEqual(await ask("help no"), ["(no is not a command; help shows the commands)"]);
});

test("completion of commands, places, keys, and files", async () => {
  const { prompt, ask } = createPrompt({ "board.toml": BOARD, "p.asm": "" });
  await ask("wire board.toml", "break 3", "watch 0 0x12");
  for (const [line, words, end] of [
    ["pre", ["press "], "pre"], ["so", ["source "], "so"], ["press ", ["0", "1"], ""], ["press 0 1", ["1"], "1"], ["press 0 0 ", [], ""],
    ["poke st", ["st."], "st"], ["poke acc ", [], ""], ["trace 5 la", ["lamps"], "la"], ["unbreak ", ["0x003"], ""],
    ["unwatch ", ["0 0x12"], ""], ["ram ", ["0"], ""], ["help pl", ["places"], "pl"], ["seq ", [], ""], ["constructor ", [], ""],
    ["wire b", ["board.toml"], "b"], ["source ", ["board.toml", "p.asm"], ""],
  ]) assert.deepEqual(await prompt.complete(line), [words, end], line);
  await ask("asm");
  assert.deepEqual(await prompt.complete("NOP"), [["\t"], ""]);
});

test("texts are wrapped at words", () => {
  assert.equal(wrapText(" one  two three ", 8), "one two\nthree");
  assert.deepEqual([wrapText("one two", 7), wrapText("one two", 6)], ["one two", "one\ntwo"]);
  assert.equal(wrapText("a verylongword b", 6, "- ", "  "), "- a\n  verylongword\n  b");
  assert.equal(wrapMessage("line 3: one two three\n    one two three four", 12), "line 3: one\n  two three\n    one two three four");
});
