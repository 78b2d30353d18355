// Compares the page's module with the program: `node compare_page.mjs MODULE MCS4 COUNT`. Both serve the examples and COUNT random scripts. The
// answers, the exit status and each byte of the session file must be the same. The same must hold if a script is split into two calls, with or
// without settling the file in between, and if the file has version 1 or is damaged. (To settle a file means to replace its records with a snapshot.)
// If the module gets the lines in several calls, as the page does with long work, the answers must be the same as in one call.
import { spawnSync } from "node:child_process";
import { closeSync, existsSync, mkdtempSync, openSync, readFileSync, readdirSync, rmSync, writeFileSync } from "node:fs";
import { tmpdir } from "node:os";
import { dirname, join } from "node:path";
import { fileURLToPath } from "node:url";
import { Engine } from "../../js/core/engine/engine.js";
import { findInputEnd, matchAnswers, readInputs } from "../../js/core/bench/inputs.js";
import { disassembleRom } from "../../js/core/engine/text_recovery.js";

const [modulePath, mcs4, count] = process.argv.slice(2);
// The files are in memory if possible, because the program waits for the disk after each command.
const work = mkdtempSync(join(existsSync("/dev/shm") ? "/dev/shm" : tmpdir(), "compare_page."));
process.on("exit", () => rmSync(work, { recursive: true, force: true }));

let seed = 20261123;
/** Returns a random integer from 0 to `limit` - 1. */
function random(limit) {
  seed = (Math.imul(seed, 1103515245) + 12345) >>> 0;
  return (seed >>> 8) % limit;
}
const pick = (list) => list[random(list.length)];
const callOneOf = (functions) => pick(functions)();

const examples = join(dirname(fileURLToPath(import.meta.url)), "../../examples");
const calculator = readFileSync(join(examples, "calculator/board.toml"), "utf8");
const BOARDS = [
  calculator,
  '[[rom]]\nchip = 0\nport = "0000"\n[[ram]]\nbank = 0\nchips = 4\n[[chain]]\nclock = "rom0.0"\ndata = "rom0.1"\nchips = 1\n'
    + '[[lamp]]\nline = "chain0.3"\n',
  'rom = [{ chip = 0, port = "1i0i" }, { chip = 3, port = "0000" }]\nram = [{ bank = 7, chips = 2 }, { bank = 1, chips = 1 }]\n',
  'rom = [{ chip = 0, port = "0000" }, { chip = 1, port = "iiii" }]\nchain = [{ clock = "rom0.0", data = "rom0.1", chips = 8 }]\n'
    + 'keys = { chain = 0, first = 70, rows = 10, columns = ["rom1.0", "rom1.0", "rom1.3"] }\n'
    + 'lamp = [{ line = "chain0.79" }, { line = "rom0.2" }]\n',
  '[[rom]]\nchip = 16\nport = "0000"\n', "size = 1\n", "[[rom\n", '[[ram]]\nbank = 0\nchips = 5\n', "",
];
const MNEMONICS = ("NOP CLB CLC IAC CMC CMA RAL RAR TCC DAC TCS STC DAA KBP DCL WRM WMP WRR WR0 WR1 WR2 WR3 SBM RDM RDR ADM "
  + "RD0 RD1 RD2 RD3 WPM").split(" ");
const PLACES = [() => "acc", () => "cy", () => "pc", () => "dcl", () => `r${random(17)}`, () => `rom.${random(4200)}`,
  () => `ram.${random(9)}.${random(260)}`, () => `st.${random(8)}.${random(16)}.${random(5)}`];
const TRACE_PLACES = PLACES.concat([() => "lamps", () => "ret", () => `rom${random(17)}.${random(4)}`,
  () => `ram${random(8)}.${random(5)}.${random(4)}`, () => `chain${random(4)}.${random(81)}`, () => `rom${random(16)}`, () => `ram${random(8)}.${random(4)}`,
  () => `chain${random(4)}`, () => "src"]);

function randomProgram() {
  const lines = [];
  const size = 1 + random(40);
  for (let n = 0; n < size; n++) {
    if (random(9) === 0) lines.push(`l${n}:`);
    lines.push(callOneOf([() => pick(MNEMONICS), () => pick(MNEMONICS), () => `FIM P${random(8)}, ${random(256)}`, () => `SRC P${random(8)}`,
      () => `LDM ${random(16)}`, () => `${pick(["ADD", "SUB", "LD", "XCH", "INC"])} R${random(16)}`, () => `ISZ R${random(16)}, ${random(200)}`,
      () => `JUN ${random(300)}`, () => `JMS ${random(300)}`, () => `BBL ${random(16)}`, () => `JCN ${random(16)}, ${random(200)}`,
      () => `DB ${random(256)}, ${random(300)}`, () => `FIN P${random(8)}`, () => `JIN P${random(8)}`, () => `ORG ${random(600)}`,
      () => `JUN l${random(size)}`]));
  }
  return `asm\n${lines.join("\n")}\n.\n`;
}

function randomLine() {
  return callOneOf([() => `run ${1 + random(3000)}`, () => `run ${1 + random(100)}`, () => `run ${pick([0, 100000, 100001])}`, () => "step",
    () => `poke ${callOneOf(PLACES)} ${random(random(4) ? 16 : 300)}`,
    () => `press ${random(10)} ${random(5)}`, () => `release ${random(10)} ${random(5)}`,
    () => `test ${random(3)}`, () => "reset", () => `break ${random(400)}`, () => `unbreak ${random(400)}`,
    () => `watch ${random(9)} ${random(3) ? random(64) : random(260)}`, () => `unwatch ${random(8)} ${random(64)}`,
    () => pick(["lamps", "regs", "breaks", "watches", "board", "seq", "state"]), () => pick(["state", "watches", "regs"]),
    () => `count ${1 + random(2000)}`,
    () => `trace ${1 + random(300)} ${Array.from({ length: random(5) }, () => callOneOf(TRACE_PLACES)).join(" ")}`,
    () => `ram ${random(9)}`, () => `list ${random(4200)} ${random(260)}`, () => `wire\n${pick(BOARDS)}.`, () => randomProgram().trimEnd(),
    () => `foo ${random(9)}`, () => "", () => "\tregs \r", () => "wire now", () => "x".repeat(250 + random(10)), () => "caf\u00e9"]);
}

function randomScript() {
  let text = random(5) ? `wire\n${pick(BOARDS.slice(0, 4))}.\n${randomProgram()}` : "";
  for (let count = 5 + random(60); count > 0; count--) text += `${randomLine()}\n`;
  // Sometimes the input ends in the middle of a line or of a text.
  return random(6) ? text : text.slice(0, random(text.length));
}

const path = join(work, "s.mcs");
const inputPath = join(work, "input");

// Returns the program's answers, exit status and session file for a script. The script runs in a new session if `file` is null, otherwise
// in the session file.
function programResult(file, input) {
  rmSync(path, { force: true });
  if (file) writeFileSync(path, file);
  // The input comes from a file. A program that rejects its session exits without reading its input, so a write to a pipe would fail (EPIPE).
  writeFileSync(inputPath, input);
  const inputFile = openSync(inputPath);
  const result = spawnSync(mcs4, [file ? "open" : "new", path], { stdio: [inputFile, "pipe", "pipe"], maxBuffer: 1 << 28 });
  closeSync(inputFile);
  if (result.error) throw result.error;
  return { output: result.stdout.toString("latin1"), status: result.status, file: readFileSync(path) };
}

// Calls the page's module. Returns its answers, exit status and session file. By default, the call is `bench_serve`, which does not settle the file.
function pageResult(engine, file, input, call = "bench_serve") {
  try {
    const { status, openingAnswer, answers } = engine.callForAnswers(call, file || engine.begin(), input);
    const { instance } = engine;
    const size = file ? file.length : engine.size;
    return { output: [openingAnswer, ...answers, ""].join("\n"), status, file: instance.viewBytes(instance.fileBuffer, size).slice() };
  } catch (error) {
    return { output: `${error.message}\n`, status: 3, file };
  }
}

function settle(engine, file) {
  const { instance } = engine;
  instance.copyFile(file);
  if (!engine.call((calls) => calls.bench_settle(instance.fileBuffer.offset, BigInt(file.length)))) return file;
  return instance.viewBytes(instance.fileBuffer, file.length).slice();
}

// Patterns for the beginning of an answer, by the kind of input that it answers.
const ANSWER_BEGINNINGS = {
  regs: /^acc /, list: /^[0-9A-F]{3} /, lamps: /^lamps /, ram: /^ram /, board: /^board$/,
  map: /^map lines /, wiring: /^wiring valid$/, errors: /^errors [0-9]+$/, breaks: /^breaks /, watches: /^watches /, seq: /^seq /, state: /^state seq /,
  count: /^count ran /, trace: /^trace ran /,
};

// Returns true if the page's function `matchAnswers` assigns the answers to the correct inputs.
function areAnswersMatched(input, output) {
  const answers = output.split("\n").slice(1, -1);
  const inputs = readInputs(Buffer.from(input).toString("latin1"));
  const parts = matchAnswers(inputs, answers);
  const matches = (part, index) => part.length > 0 && (/^no \d/.test(part[0]) || (ANSWER_BEGINNINGS[inputs[index].kind] || /^ok \d/).test(part[0]));
  return parts.every(matches) && parts.flat().length === answers.length;
}

let passed = 0;
let failed = 0;
function compare(name, engine, file, input) {
  const expected = programResult(file, input);
  const actual = pageResult(engine, file, input);
  const differences = [];
  if (actual.output !== expected.output) differences.push("answers");
  if (actual.status !== expected.status) differences.push(`status ${actual.status}, not ${expected.status}`);
  if (Buffer.compare(Buffer.from(actual.file), expected.file) !== 0) differences.push("file");
  if (expected.status === 0 && !areAnswersMatched(input, expected.output)) differences.push("the answers of each input");
  passed += differences.length === 0 ? 1 : 0;
  failed += differences.length === 0 ? 0 : 1;
  if (differences.length > 0) console.error(`compare_page: ${name} differs: ${differences.join(", ")}; input:\n${input.slice(0, 2000)}`);
  return expected.file;
}

// Converts a settled file of version 2 to version 1, which has no version byte and no number of watches. Returns null if the file has watches.
function toVersion1(file) {
  const slot = file[8] % 2 === 0 ? 16 : 81936;
  const length = new DataView(file.buffer, file.byteOffset).getUint32(slot);
  const snapshot = file.slice(slot + 4, slot + 4 + length);
  if (snapshot[length - 1] !== 0) return null;
  const version1File = file.slice();
  version1File.set(snapshot.slice(0, 4), slot + 4);
  version1File.set(snapshot.slice(5, length - 1), slot + 8);
  new DataView(version1File.buffer).setUint32(slot, length - 2);
  return version1File;
}

// Returns true if version 1 can store the board: at most two chains, each of at most four 4003s.
function fitsVersion1(engine, file) {
  const chains = answersTo(engine, file, "board\n").join("\n").split("[[").filter((part) => part.startsWith("chain]]"));
  return chains.length <= 2 && chains.every((chain) => !/^chips = [5-8]$/m.test(chain));
}

const QUERIES = "seq\nstate\nregs\nlamps\nports\nwatches\nbreaks\nboard\nram 0\nram 1\nram 7\nlist 0 256\n";

const LIST_ALL_ROM = [...Array(16).keys()].map((page) => `list ${page * 256} 256\n`).join("");

// Counts the result of a check, and prints its name if it failed.
function verdict(name, isRight) {
  passed += isRight ? 1 : 0;
  failed += isRight ? 0 : 1;
  if (!isRight) console.error(`compare_page: ${name}`);
}

const answersTo = (engine, file, lines) => engine.ask(file, lines).answers;

// Checks that the source text that the page generates from ROM reproduces the same bytes in an empty ROM.
function compareSource(name, engine, file) {
  const board = answersTo(engine, file, "board\n").slice(1).map((line) => `${line}\n`).join("");
  const source = disassembleRom(engine, file);
  const regeneratedAnswers = answersTo(engine, file, `wire\n.\nwire\n${board}.\nasm\n${source}.\n${LIST_ALL_ROM}`).slice(3);
  verdict(`${name}: the source text from ROM gives other bytes`, regeneratedAnswers.join() === answersTo(engine, file, LIST_ALL_ROM).join());
}

// Reads a file's active slot, as docs/FORMAT.md defines it. Returns the number of commands and the version in its snapshot, and whether records
// follow.
function readActiveSlot(file) {
  const slot = file[8] % 2 === 0 ? 16 : 81936;
  const seq = new DataView(file.buffer, file.byteOffset).getUint32(slot + 4);
  return { seq, version: file[slot + 8], hasRecords: file[slot + 16384] === 1 };
}

// Checks that a settled file has a snapshot of all commands and no records.
function checkSettled(name, file, seq) {
  const slot = readActiveSlot(file);
  const isRight = slot.version === 2 && !slot.hasRecords && slot.seq === seq;
  verdict(`${name} has not settled the file: ${JSON.stringify(slot)}, after ${seq} commands were accepted`, isRight);
}

const seqOf = (engine, file) => Number(answersTo(engine, file, "seq\n")[0].split(" ")[1]);

// Serves lines in pieces, as the page does with long work, and settles after each piece. Checks that the answers are the same as in one call.
function compareInPieces(name, engine, file, input) {
  const bytes = Uint8Array.from(file);
  const answers = [engine.ask(file, "").openingAnswer];
  for (let start = 0; start < input.length;) {
    const end = findInputEnd(input, start, 1 + random(200));
    answers.push(...engine.serve(bytes, input.slice(start, end), bytes).answers);
    start = end;
  }
  verdict(`${name}: lines in pieces have other answers`, [...answers, ""].join("\n") === pageResult(engine, file, input).output);
}

function compareFiles(name, engine, file) {
  compareSource(name, engine, file);
  compareInPieces(name, engine, file, randomScript());
  const settledFile = settle(engine, file);
  checkSettled(`${name}: settle`, settledFile, seqOf(engine, file));
  const servedAndSettledFile = new Uint8Array(file.length);
  engine.serve(file, "poke acc 1\npoke acc 2\n", servedAndSettledFile);
  checkSettled(`${name}: serving and settling`, servedAndSettledFile, seqOf(engine, file) + 2);
  const output = pageResult(engine, file, QUERIES).output;
  compare(`${name}, settled`, engine, settledFile, QUERIES);
  verdict(`${name}: settling changed an answer`, pageResult(engine, settledFile, QUERIES).output === output);
  const old = toVersion1(settledFile);
  if (old && fitsVersion1(engine, settledFile)) {
    compare(`${name}, of version 1`, engine, old, QUERIES);
    checkSettled(`${name}: settle of version 1`, settle(engine, Uint8Array.from(old)), seqOf(engine, old));
  }
  const damagedFile = Uint8Array.from(file);
  const randomOffset = () => callOneOf([() => random(24), () => 16 + random(8000), () => 16400 + random(2000)]);
  for (let changes = 1 + random(3); changes > 0; changes--) damagedFile[randomOffset()] ^= 1 << random(8);
  compare(`${name}, damaged`, engine, damagedFile, QUERIES);
}

function measureSeconds(act) {
  const start = process.hrtime.bigint();
  act();
  return Number(process.hrtime.bigint() - start) / 1e9;
}

const shortestTime = (act) => Math.min(...[1, 2, 3].map(() => measureSeconds(act)));

// Returns the speeds of the page's module and of the program when they run the calculator, in cycles per second.
function measureSpeeds(engine) {
  const board = `wire\n${calculator}.\nasm\n${readFileSync(join(examples, "calculator/calculator.asm"), "utf8")}.\n`;
  const runs = "run 100000\n".repeat(300);
  const file = engine.begin();
  engine.serve(file, board, file);
  const pageSpeed = 3e7 / shortestTime(() => engine.ask(file, runs));
  const nativeSpeed = 3e7 / shortestTime(() => programResult(file, runs));
  return { pageSpeed, nativeSpeed };
}

const engine = await Engine.load(readFileSync(modulePath));
for (const name of readdirSync(examples, { recursive: true })) {
  if (name.endsWith(".txt")) compare(name, engine, null, readFileSync(join(examples, name), "utf8"));
}
// Inputs that are longer than a chunk, longer than the module's initial memory, and longer than the bench accepts.
for (const size of [70000, 1100000, 16777300]) compare(`an input of ${size} bytes`, engine, null, `poke acc 1\n${"\n".repeat(size)}seq\n`);
for (let number = 1; number <= Number(count); number++) {
  const file = compare(`script ${number}`, engine, null, randomScript());
  if (number % 4 === 0) compare(`script ${number}, continued`, engine, file, randomScript());
  if (number % 8 === 0) compareFiles(`script ${number}`, engine, file);
}
for (const bytes of [Buffer.from("no session"), new Uint8Array(163856), new Uint8Array(163857)]) {
  compare(`a file of ${bytes.length} bytes`, engine, bytes, "seq\n");
}
const { pageSpeed, nativeSpeed } = measureSpeeds(engine);
const millions = [pageSpeed, nativeSpeed].map((speed) => Math.round(speed / 1e6));
console.log(`${passed} equal, ${failed} different; ${millions[0]} million cycles a second in node, the program ${millions[1]}`);
process.exitCode = failed === 0 ? 0 : 1;
