// Compares WebAssembly modules of the bench with each other: `node compare_modules.mjs EXAMPLES COUNT MODULE MODULE..`. EXAMPLES is the folder of the
// examples. All modules run the same COUNT random sessions. After each call, the reports, the answers and each byte of the file must be the same,
// even if the file is damaged or has another size. (To serve lines means to execute them and to record the commands in the file. To settle a file
// means to replace its records with a snapshot.) The first module must also satisfy three laws:
// - Serving and settling in one call has the same result, byte for byte, as serving and then settling.
// - Asking gives the same answers as serving, and does not change the file.
// - The file of each session can be settled.
import { readFileSync } from "node:fs";
import { join } from "node:path";

const [examples, count, ...paths] = process.argv.slice(2);
/** The size in bytes of the buffers for an input and for answers. */
const BUFFER_SIZE = 1n << 20n;
const FILE_BUFFER_SIZE = 1n << 18n;

// A module instance with buffers for a file, an input and the answers.
class Instance {
  constructor(path) {
    this.exports = new WebAssembly.Instance(new WebAssembly.Module(readFileSync(path)), {}).exports;
    this.file = this.exports.bench_buffer(FILE_BUFFER_SIZE);
    this.input = this.exports.bench_buffer(BUFFER_SIZE);
    this.answers = this.exports.bench_buffer(BUFFER_SIZE);
    this.report = this.exports.bench_buffer(16n);
    this.size = 0;
  }

  view(offset, size) {
    return new Uint8Array(this.exports.memory.buffer, Number(offset), size);
  }

  begin() {
    this.size = Number(this.exports.bench_file_size());
    return { done: this.exports.bench_begin(this.file, BigInt(this.size)) !== 0 };
  }

  settle() {
    return { done: this.exports.bench_settle(this.file, BigInt(this.size)) !== 0 };
  }

  /** Calls a function of the module with an input. Returns an array: true if it succeeded, the two numbers in its report, and the answers. */
  serve(name, text) {
    const input = Buffer.from(text, "latin1");
    this.view(this.input, input.length).set(input);
    const args = [this.file, BigInt(this.size), this.input, BigInt(input.length), this.answers, BUFFER_SIZE, this.report];
    const done = this.exports[name](...args) !== 0;
    const report = new DataView(this.exports.memory.buffer, Number(this.report), 16);
    const [number, bytes] = [report.getUint32(0, true), Number(report.getBigUint64(8, true))];
    const answers = done ? Buffer.from(this.view(this.answers, bytes)).toString("latin1") : "";
    return { done, number, bytes, answers };
  }

  /** Returns a copy of the session file in the instance. */
  getFile() {
    return Buffer.from(this.view(this.file, this.size).slice());
  }

  /** Replaces the session file in the instance. */
  setFile(file) {
    this.size = file.length;
    this.view(this.file, file.length).set(file);
  }
}

let seed = 20261124;
/** Returns a random integer from 0 to `limit` - 1. */
function random(limit) {
  seed = (Math.imul(seed, 1103515245) + 12345) >>> 0;
  return (seed >>> 8) % limit;
}
const pick = (list) => list[random(list.length)];

const BOARDS = [
  readFileSync(join(examples, "calculator/board.toml"), "latin1"),
  readFileSync(join(examples, "three_lamps/board.toml"), "latin1"),
  'rom = [{ chip = 0, port = "1i0i" }, { chip = 3, port = "0000" }]\nram = [{ bank = 7, chips = 2 }, { bank = 1, chips = 4 }]\n',
  "[[rom]]\nchip = 16\n", "",
];
const PROGRAM = readFileSync(join(examples, "calculator/calculator.asm"), "latin1");

// Returns a program: the calculator's, or random bytes, so that each instruction runs under many conditions.
function randomProgram() {
  if (random(3) === 0) return `asm\n${PROGRAM}.\n`;
  const lines = [...Array(1 + random(60))].map(() => `DB ${[...Array(1 + random(16))].map(() => random(256)).join(", ")}`);
  return `asm\n${lines.join("\n")}\n.\n`;
}

const LINES = [
  () => `run ${1 + random(3000)}`, () => `run ${1 + random(3000)}`, () => "run 100000", () => `run ${pick([0, 100001])}`, () => "step",
  () => `poke ${pick(["acc", "cy", "pc", "dcl", "r0", "r15", "r16", "rom.9", "ram.1.40", "st.2.3.1"])} ${random(20)}`,
  () => `press ${random(10)} ${random(5)}`, () => `release ${random(10)} ${random(5)}`, () => `test ${random(3)}`, () => "reset",
  () => `break ${random(400)}`, () => `unbreak ${random(400)}`, () => `watch ${random(9)} ${random(70)}`, () => `unwatch ${random(8)} ${random(64)}`,
  () => `ram ${random(9)}`, () => `list ${random(4200)} ${random(260)}`, () => "regs\nlamps\nports\nbreaks\nwatches\nboard\nseq",
  () => `wire\n${pick(BOARDS)}.`, () => randomProgram().trimEnd(), () => "foo", () => "\tregs \r", () => "x".repeat(250 + random(10)), () => "caf\u00e9",
];

/** Returns a random input. */
function randomInput() {
  const setup = random(4) ? `wire\n${pick(BOARDS.slice(0, 3))}.\n${randomProgram()}` : "";
  const text = setup + [...Array(2 + random(30))].map(() => `${pick(LINES)()}\n`).join("");
  // Sometimes the input ends in the middle of a line or of a text.
  return random(6) ? text : text.slice(0, random(text.length));
}

let comparisonCount = 0;
let failureCount = 0;
/** Counts a comparison, and prints its name if it failed. */
function countComparison(name, isRight) {
  comparisonCount += 1;
  if (isRight) return;
  failureCount += 1;
  console.error(`compare_modules: ${name}`);
}

const instances = paths.map((path) => new Instance(path));

// Calls `act` with each instance. Checks that all results (as JSON, or as error messages) and all files are the same. Returns the result of
// the first module.
function compareAll(name, act) {
  const results = instances.map((instance) => {
    try {
      return JSON.stringify(act(instance));
    } catch (error) {
      return String(error);
    }
  });
  const file = instances[0].getFile();
  instances.forEach((instance, index) => countComparison(`${name}: ${paths[index]} differs from ${paths[0]}`, results[index] === results[0] && instance.getFile().equals(file)));
  return results[0];
}

// Checks the three laws of the calls that serve, settle and ask.
function tryLaws(name, text) {
  const [instance] = instances;
  const before = instance.getFile();
  const served = instance.serve("bench_serve", text);
  countComparison(`${name}: the file cannot be settled`, !served.done || instance.settle().done);
  const settledFile = instance.getFile();
  instance.setFile(before);
  const answers = instance.serve("bench_ask", text);
  countComparison(`${name}: asking gives other answers`, JSON.stringify(answers) === JSON.stringify(served));
  countComparison(`${name}: asking changes the file`, instance.getFile().equals(before));
  const servedAndSettled = instance.serve("bench_serve_and_settle", text);
  countComparison(`${name}: serving and settling gives other answers`, JSON.stringify(servedAndSettled) === JSON.stringify(served));
  countComparison(`${name}: serving and settling leaves another file`, instance.getFile().equals(served.done ? settledFile : before));
  instance.setFile(before);
}

/** Returns a copy of a file with changed bits. */
function damagedCopy(file) {
  const damaged = Buffer.from(file);
  for (let changes = 1 + random(4); changes > 0; changes--) {
    damaged[pick([random(24), 16 + random(8000), 16400 + random(2000), 81936 + random(3000)])] ^= 1 << random(8);
  }
  return damaged;
}

function tryFile(name, file) {
  for (const instance of instances) instance.setFile(file);
  compareAll(`${name}, served`, (instance) => instance.serve("bench_serve", "seq\nregs\nlamps\nram 0\nlist 0 64\nrun 1000\n"));
  compareAll(`${name}, settled`, (instance) => instance.settle());
}

const CALLS = ["bench_serve", "bench_serve_and_settle", "bench_ask"];
for (let number = 1; number <= Number(count); number++) {
  compareAll(`session ${number}, begun`, (instance) => instance.begin());
  for (let part = 1 + random(4); part > 0; part--) {
    const text = randomInput();
    tryLaws(`session ${number}`, text);
    const call = pick(CALLS);
    compareAll(`session ${number}, ${call}`, (instance) => instance.serve(call, text));
    if (random(3) === 0) compareAll(`session ${number}, settled`, (instance) => instance.settle());
  }
  if (number % 3 === 0) tryFile(`damaged file ${number}`, damagedCopy(instances[0].getFile()));
  if (number % 25 === 0) tryFile(`a file of another size, ${number}`, Buffer.alloc(pick([0, 1, 16, 163855, 163857]), 7));
}
console.log(`${count} sessions, ${comparisonCount} comparisons, ${failureCount} differ`);
process.exitCode = failureCount === 0 ? 0 : 1;
