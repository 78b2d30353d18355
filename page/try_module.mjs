// Checks a WebAssembly module of the bench that page/wasm has built: `node try_module.mjs MODULE SHORT`. SHORT is the same module with a stack that
// is too short for any call. The script checks properties that no compiler checks:
// - MODULE has one memory, with 32-bit addresses and at most 256 MiB.
// - If that memory cannot grow, calls answer `no 90` and leave the file unchanged. The calls work again when there is memory.
// - The prover answers questions, including one with more states than fit into memory.
// - A stack overflow, which every call of SHORT causes, ends in a trap.
import { readFileSync } from "node:fs";

const MEMORY_SECTION = 5;
const HAS_MAX = 1;
const MAX_PAGES = 4096;
const BLOCK_SIZE = 16n << 20n;
const REPORT_SIZE = 16;
const NO_MEMORY = 90;

// Returns the unsigned number in LEB128 at an index, and the index after it.
function readNumber(bytes, index) {
  let value = 0;
  let shift = 0;
  let next = index;
  for (;;) {
    const byte = bytes[next];
    next += 1;
    value += (byte & 127) * 2 ** shift;
    shift += 7;
    if (byte < 128) return { value, next };
  }
}

// Returns the number of memories in the module, the flags of the first memory, and its maximum number of pages. All are 0 if there is no memory.
function readMemorySection(bytes) {
  let index = 8;
  while (index < bytes.length) {
    const kind = bytes[index];
    const size = readNumber(bytes, index + 1);
    if (kind === MEMORY_SECTION) {
      const count = readNumber(bytes, size.next);
      const flags = readNumber(bytes, count.next);
      const minPages = readNumber(bytes, flags.next);
      return { count: count.value, flags: flags.value, maxPages: readNumber(bytes, minPages.next).value };
    }
    index = size.next + size.value;
  }
  return { count: 0, flags: 0, maxPages: 0 };
}

// Returns the exports of a new instance of the module in a file.
function instantiate(path) {
  return new WebAssembly.Instance(new WebAssembly.Module(readFileSync(path)), {}).exports;
}

// Allocates the buffers for calls: the file, the input, the answers and the report. Copies the input into its buffer. Returns the addresses and
// sizes of the buffers.
function allocateBuffers(calls, input) {
  const size = calls.bench_file_size();
  const file = calls.bench_buffer(size);
  const lines = calls.bench_buffer(64n);
  const answers = calls.bench_buffer(4096n);
  const report = calls.bench_buffer(BigInt(REPORT_SIZE));
  new Uint8Array(calls.memory.buffer, Number(lines)).set(input);
  return { size, file, lines, count: BigInt(input.length), answers, report };
}

// Returns a copy of the session file that the module has in its memory.
function copyFile(calls, { file, size }) {
  return Buffer.from(new Uint8Array(calls.memory.buffer, Number(file), Number(size)).slice());
}

// Serves the input with the call `name`. Returns 0 if it was served, otherwise the number of the error.
function serve(calls, name, { file, size, lines, count, answers, report }) {
  const isServed = calls[name](file, size, lines, count, answers, 4096n, report);
  return isServed ? 0 : new DataView(calls.memory.buffer, Number(report)).getUint32(0, true);
}

const errors = [];
function expect(name, actual, expected) {
  if (actual !== expected) errors.push(`${name}: ${actual}, not ${expected}`);
}

function checkMemory(bytes) {
  const { count, flags, maxPages } = readMemorySection(bytes);
  expect("memories", count, 1);
  expect("flags of the memory", flags, HAS_MAX);
  expect("pages of the memory at most", maxPages, MAX_PAGES);
}

function checkWithoutMemory(calls) {
  const buffers = allocateBuffers(calls, Buffer.from("poke r5 9\nregs\n"));
  expect("begin", calls.bench_begin(buffers.file, buffers.size) !== 0, true);
  // This call frees its blocks when it returns. The loop below must allocate these blocks, too, so that the heap is full.
  expect("serve", serve(calls, "bench_serve_and_settle", buffers), 0);
  const blocks = [];
  for (let size = BLOCK_SIZE; size >= 16n; size /= 2n) {
    for (let block = calls.bench_buffer(size); block !== 0n; block = calls.bench_buffer(size)) blocks.push(block);
  }
  const fileBefore = copyFile(calls, buffers);
  for (const name of ["bench_serve", "bench_serve_and_settle", "bench_ask"]) {
    expect(`${name} without memory`, serve(calls, name, buffers), NO_MEMORY);
  }
  expect("settle without memory", calls.bench_settle(buffers.file, buffers.size), 0);
  expect("begin without memory", calls.bench_begin(buffers.file, buffers.size), 0);
  expect("the file is unchanged without memory", copyFile(calls, buffers).equals(fileBefore), true);
  for (const block of blocks) calls.bench_buffer_back(block);
  expect("serve with memory again", serve(calls, "bench_serve", buffers), 0);
  expect("the file has changed with memory", copyFile(calls, buffers).equals(fileBefore), false);
}

// Returns a question to the prover about a program that counts in `registers` registers and turns its lamp on while TEST is 0. The question is
// whether the program never reaches the output `unwantedOutput` of its port. The lamp is line 0; line 1 is always 0. The prover may visit at most
// `maxStates` states.
function formatQuestion(maxStates, registers, unwantedOutput) {
  const counts = [...Array(registers).keys()].map((register) => `ISZ R${register}, look\n`).join("");
  return `most ${maxStates}\nwire\n[[rom]]\nchip = 0\nport = "0000"\n[[ram]]\nbank = 0\nchips = 1\n.\nasm\n`
    + `look: JCN 1, on\nLDM 0\nWMP\n${counts}JUN look\non: LDM 1\nWMP\n${counts}JUN look\n.\nnever\nin ramport 0 ${unwantedOutput}\nprove\n`;
}

// Sends a question to the prover. Returns the number in the report and the answer. If there is no answer, returns the error number and the count
// in the report. `answerSize` is the size of the buffer for the answer.
function prove(calls, text, answerSize = 4096n) {
  const input = Buffer.from(text);
  const [lines, answers, report] = [BigInt(input.length), answerSize, BigInt(REPORT_SIZE)].map((size) => calls.bench_buffer(size));
  new Uint8Array(calls.memory.buffer, Number(lines)).set(input);
  const isAnswered = calls.bench_prove(lines, BigInt(input.length), answers, answerSize, report);
  const reportView = new DataView(calls.memory.buffer, Number(report));
  const [number, count] = [reportView.getUint32(0, true), Number(reportView.getBigUint64(8, true))];
  const answer = Buffer.from(new Uint8Array(calls.memory.buffer, Number(answers), isAnswered ? count : 0)).toString();
  for (const block of [lines, answers, report]) calls.bench_buffer_back(block);
  return isAnswered ? `${number} ${answer}` : `nothing: ${number} ${count}`;
}

function checkProver(calls) {
  expect("a proof", prove(calls, formatQuestion(1000, 1, "line1 1 1")), "0 holds 32");
  expect("a question about too many states", prove(calls, formatQuestion(10, 1, "line1 1 1")), "0 too many");
  expect("a path to the unwanted output", prove(calls, formatQuestion(1000, 1, "line0 1 1")), "0 may fail 0");
  expect("an answer that does not fit into its buffer", prove(calls, formatQuestion(1000, 1, "line0 1 1"), 4n), "nothing: 0 10");
  expect("no question", prove(calls, "most 3\n"), "2 no question");
  expect("no board", prove(calls, "wire\nrom = 5\n.\nasm\n.\nprove\n"), "3 no 23");
  expect("bytes that are not a text", prove(calls, Buffer.from([255])), "2 no question");
  expect("states without memory", prove(calls, formatQuestion(4000000000, 16, "line1 1 1")).replace(/\d{4,}$/, "N"), "0 no room N");
  expect("a proof with memory again", prove(calls, formatQuestion(1000, 1, "line1 1 1")), "0 holds 32");
}

function checkStackOverflow(calls) {
  const buffers = allocateBuffers(calls, Buffer.from("seq\n"));
  let thrownErrorName = "no trap";
  try {
    calls.bench_begin(buffers.file, buffers.size);
  } catch (error) {
    thrownErrorName = error.constructor.name;
  }
  expect("a stack that is too short", thrownErrorName, "RuntimeError");
}

const [path, shortPath] = process.argv.slice(2);
checkMemory(readFileSync(path));
checkWithoutMemory(instantiate(path));
checkProver(instantiate(path));
checkStackOverflow(instantiate(shortPath));
for (const error of errors) console.error(`try_module: ${error}`);
process.exitCode = errors.length === 0 ? 0 : 1;
