// Calls the proved WebAssembly module. A call receives the bytes of a session file, and lines (commands and queries) to execute in that
// session. It returns the answers and the new bytes of the file. The module does not store a session between calls.

import { BenchRefusal, BenchTrap, OUT_OF_MEMORY } from "../bench/bench_errors.js";

/**
 * The result of executing lines: the shell's exit status, the answer `session N` to the opening of the session (`openingAnswer`), and the
 * answers to the lines.
 * @typedef {{ status: number, openingAnswer: string, answers: string[] }} ServedAnswers
 *
 * A buffer in the memory of the module: its address (`offset`), and its size in bytes (`capacity`).
 * @typedef {{ offset: bigint, capacity: number }} ModuleBuffer
 *
 * @typedef {"bench_serve_and_settle" | "bench_ask"} ServingCall
 * @typedef {(file: bigint, fileSize: bigint, input: bigint, inputSize: bigint, answers: bigint, capacity: bigint,
 *   report: bigint) => number} ServeFunction
 *
 * The exports of the module.
 * @typedef {{ memory: WebAssembly.Memory, bench_file_size: () => bigint, bench_buffer: (count: bigint) => bigint, bench_buffer_back:
 * (offset: bigint) => void, bench_begin: (file: bigint, size: bigint) => number, bench_serve_and_settle: ServeFunction, bench_ask:
 * ServeFunction, bench_prove: (question: bigint, size: bigint, answers: bigint, capacity: bigint,
 *   report: bigint) => number }} ModuleExports
 */

/** The initial size of the input and answer buffers, in bytes. */
const FIRST_CAPACITY = 1 << 20;
/** The size in bytes of the report that a call writes: a 32-bit number at offset 0, and a 64-bit count at COUNT_OFFSET. */
const REPORT_SIZE = 16;
const COUNT_OFFSET = 8;

/** A running module with the buffers for its calls. */
class Instance {
  /** @param {WebAssembly.Module} module */
  constructor(module) {
    this.exports = startInstance(module);
    /** The size of a session file in bytes. */
    this.size = Number(this.exports.bench_file_size());
    this.bytes = new Uint8Array(this.exports.memory.buffer);
    // The additional byte lets the module detect a file that is too long.
    this.fileBuffer = this.allocate(this.size + 1);
    this.inputBuffer = this.allocate(FIRST_CAPACITY);
    this.answersBuffer = this.allocate(FIRST_CAPACITY);
    this.reportBuffer = this.allocate(REPORT_SIZE);
  }

  /**
   * Allocates a buffer. Throws a BenchRefusal if the allocation fails.
   * @param {number} capacity the size of the buffer in bytes
   * @returns {ModuleBuffer}
   */
  allocate(capacity) {
    const offset = this.exports.bench_buffer(BigInt(capacity));
    if (offset === BigInt(0)) throw new BenchRefusal(OUT_OF_MEMORY);
    return { offset, capacity };
  }

  /**
   * Returns a buffer of at least `capacity` bytes: `buffer` itself, or a larger replacement.
   * @param {ModuleBuffer} buffer
   * @param {number} capacity
   */
  ensureCapacity(buffer, capacity) {
    if (capacity <= buffer.capacity) return buffer;
    const largerBuffer = this.allocate(capacity);
    this.exports.bench_buffer_back(buffer.offset);
    return largerBuffer;
  }

  /**
   * Returns the first `count` bytes of a buffer. If the module's memory has grown, the old array is detached, so this method creates a new
   * one.
   * @param {ModuleBuffer} buffer
   * @param {number} count
   */
  viewBytes({ offset }, count) {
    const { buffer } = this.exports.memory;
    if (this.bytes.buffer !== buffer) this.bytes = new Uint8Array(buffer);
    return this.bytes.subarray(Number(offset), Number(offset) + count);
  }

  /**
   * Copies lines into the input buffer; returns their length in bytes.
   * @param {string} lines
   * @param {TextEncoder} encoder
   */
  copyLines(lines, encoder) {
    // A UTF-16 code unit needs at most three bytes in UTF-8.
    if (lines.length * 3 <= this.inputBuffer.capacity) {
      return encoder.encodeInto(lines, this.viewBytes(this.inputBuffer, this.inputBuffer.capacity)).written || 0;
    }
    const bytes = encoder.encode(lines);
    this.inputBuffer = this.ensureCapacity(this.inputBuffer, bytes.length);
    this.viewBytes(this.inputBuffer, bytes.length).set(bytes);
    return bytes.length;
  }

  /**
   * Copies a session file into the file buffer.
   * @param {Uint8Array} file
   */
  copyFile(file) {
    this.fileBuffer = this.ensureCapacity(this.fileBuffer, file.length);
    this.viewBytes(this.fileBuffer, file.length).set(file);
  }

  /**
   * Returns the report of the last call. `number` is the exit status or an error number. `count` is the size of the answers in bytes, even
   * if the answers do not fit into the buffer.
   */
  readReport() {
    const report = new DataView(this.exports.memory.buffer, Number(this.reportBuffer.offset), REPORT_SIZE);
    return { number: report.getUint32(0, true), count: Number(report.getBigUint64(COUNT_OFFSET, true)) };
  }
}

/**
 * Starts an instance of the module; returns its exports. Throws a BenchRefusal if there is too little memory.
 * @param {WebAssembly.Module} module
 * @returns {ModuleExports}
 */
function startInstance(module) {
  try {
    return /** @type {ModuleExports} */ (/** @type {unknown} */ (new WebAssembly.Instance(module, {}).exports));
  } catch (error) {
    throw error instanceof RangeError ? new BenchRefusal(OUT_OF_MEMORY) : error;
  }
}

export class Engine {
  /** @param {BufferSource} bytes the module */
  static async load(bytes) {
    return new Engine(await WebAssembly.compile(bytes));
  }

  /** @param {WebAssembly.Module} module */
  constructor(module) {
    this.module = module;
    this.encoder = new TextEncoder();
    this.decoder = new TextDecoder();
    /** @type {Instance | null} null if there was too little memory for a restart; the next call then tries again */
    this.currentInstance = new Instance(module);
    /** The size of a session file in bytes. */
    this.size = this.currentInstance.size;
  }

  get instance() {
    if (!this.currentInstance) this.currentInstance = new Instance(this.module);
    return this.currentInstance;
  }

  /**
   * Calls the module; returns whether the call succeeded. After a trap, the memory of the instance is unreliable, so a new instance
   * replaces it, and this method throws BenchTrap.
   * @param {(calls: ModuleExports) => number} callModule
   */
  call(callModule) {
    try {
      return callModule(this.instance.exports) !== 0;
    } catch (error) {
      this.currentInstance = null;
      this.currentInstance = new Instance(this.module);
      throw new BenchTrap(error instanceof Error ? error.message : String(error));
    }
  }

  /**
   * Returns the file of a new session. Throws BenchRefusal if the bench has too little memory.
   * @param {Uint8Array} [target] the array to write the file to
   */
  begin(target = new Uint8Array(this.size)) {
    const { instance } = this;
    if (!this.call((calls) => calls.bench_begin(instance.fileBuffer.offset, BigInt(this.size)))) throw new BenchRefusal(OUT_OF_MEMORY);
    target.set(instance.viewBytes(instance.fileBuffer, this.size));
    return target;
  }

  /**
   * Executes lines in the session of a file, and returns the answers. The new file contains a snapshot of the state instead of the log of
   * commands. Throws BenchRefusal if the file is not a session.
   * @param {Uint8Array} file
   * @param {string} lines
   * @param {Uint8Array} target the array for the new file; can be `file`
   * @returns {ServedAnswers}
   */
  serve(file, lines, target) {
    const servedAnswers = this.callForAnswers("bench_serve_and_settle", file, lines);
    target.set(this.instance.viewBytes(this.instance.fileBuffer, file.length));
    return servedAnswers;
  }

  /**
   * Returns the result that `serve` would return. The session does not change.
   * @param {Uint8Array} file
   * @param {string} lines
   * @returns {ServedAnswers}
   */
  ask(file, lines) {
    return this.callForAnswers("bench_ask", file, lines);
  }

  /**
   * Asks the prover; returns the line that the program mcs4-prove would print, or `no NN` for an error. The call can take hours.
   * @param {string} question
   */
  prove(question) {
    const { instance } = this;
    const size = instance.copyLines(question, this.encoder);
    let { isDone, number, count } = this.tryToProve(size);
    if (!isDone && number === 0) {
      instance.answersBuffer = instance.ensureCapacity(instance.answersBuffer, count);
      ({ isDone, number, count } = this.tryToProve(size));
    }
    return isDone ? this.decoder.decode(instance.viewBytes(instance.answersBuffer, count)) : `no ${number}`;
  }

  /**
   * Calls the prover once. If the answer does not fit into the buffer, `number` is 0 and `count` is the required size in bytes.
   * @param {number} size the length of the question in bytes
   */
  tryToProve(size) {
    const { instance } = this;
    const { inputBuffer, answersBuffer, reportBuffer } = instance;
    const isDone = this.call((calls) => (
      calls.bench_prove(inputBuffer.offset, BigInt(size), answersBuffer.offset, BigInt(answersBuffer.capacity), reportBuffer.offset)));
    return { isDone, ...instance.readReport() };
  }

  /** Does nothing. `prepareForRuns` is part of the interface EngineHost, but this host has nothing to prepare for later runs. */
  prepareForRuns() {
    // Every call receives the complete state.
  }

  /**
   * Returns a copy of a state. For this host, the bytes of a state are those of the session file.
   * @param {Uint8Array} file
   */
  bytesOf(file) {
    return file.slice();
  }

  /**
   * Returns the state in a session file. Unlike `slice`, the constructor also copies the memory of a Node Buffer.
   * @param {Uint8Array} bytes
   */
  stateOf(bytes) {
    return new Uint8Array(bytes);
  }

  /**
   * Calls the module to execute lines; returns the answers. Repeats the call with a larger buffer if the answers do not fit.
   * @param {ServingCall} name
   * @param {Uint8Array} file
   * @param {string} lines
   * @returns {ServedAnswers}
   */
  callForAnswers(name, file, lines) {
    const { instance } = this;
    const inputSize = instance.copyLines(lines, this.encoder);
    let report = this.tryToServe(name, file, inputSize);
    if (report.requiredSize > 0) {
      instance.answersBuffer = instance.ensureCapacity(instance.answersBuffer, report.requiredSize);
      report = this.tryToServe(name, file, inputSize);
    }
    const answers = this.decoder.decode(instance.viewBytes(instance.answersBuffer, report.count)).split("\n");
    answers.pop();
    const [openingAnswer] = answers.splice(0, 1);
    return { status: report.number, openingAnswer, answers };
  }

  /**
   * Calls the module once. If the answers do not fit into the buffer, the call has no effect and `requiredSize` is the size that the buffer
   * needs, in bytes; otherwise it is 0. Throws BenchRefusal if the bench rejects the call.
   * @param {ServingCall} name
   * @param {Uint8Array} file
   * @param {number} inputSize the length of the lines in bytes
   */
  tryToServe(name, file, inputSize) {
    const { instance } = this;
    instance.copyFile(file);
    const { fileBuffer, inputBuffer, answersBuffer, reportBuffer } = instance;
    const hasSucceeded = this.call((calls) => calls[name](fileBuffer.offset, BigInt(file.length), inputBuffer.offset, BigInt(inputSize),
      answersBuffer.offset, BigInt(answersBuffer.capacity), reportBuffer.offset));
    const { number, count } = instance.readReport();
    if (!hasSucceeded && number !== 0) throw new BenchRefusal(number);
    return { number, count, requiredSize: hasSucceeded ? 0 : count };
  }
}
