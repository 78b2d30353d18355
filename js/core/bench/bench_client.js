// Connects the page to the bench: sends requests to the worker and receives the replies. Terminates a worker that stops answering; the page
// can then start a new one.

import { WorkerDiedError, unpackError } from "./bench_errors.js";

/**
 * @typedef {import("../engine/bench_calls.js").Requests} Requests
 * @typedef {import("../engine/examples.js").Example} Example
 * @typedef {import("./protocol.js").Frame} Frame
 * @typedef {import("./protocol.js").ToPage} ToPage
 * @typedef {import("./protocol.js").ToWorker} ToWorker
 * @typedef {import("./protocol.js").CallName} CallName
 *
 * The callbacks of a request that has no reply yet: for its result, its error, and its progress.
 * @typedef {{ resolve: (result: any) => void, reject: (error: Error) => void,
 *   progress: (done: number, total: number) => void }} PendingRequest
 *
 * Options of a request: a signal that cancels the request, and a callback for its progress.
 * @typedef {{ signal?: AbortSignal, progress?: (done: number, total: number) => void }} CallOptions
 *
 * The worker methods that the page uses.
 * @typedef {{ postMessage: (message: ToWorker, transfer: Transferable[]) => void, terminate: () => void,
 *   addEventListener: (kind: string, listen: (event: any) => void) => void }} WorkerLike
 *
 * Callbacks for messages without a request: a frame of a run at full speed, an error that stopped the run, and the termination of a worker
 * that stopped answering.
 * @typedef {{ handleFrame: (frame: Frame) => void, handleFailure: (error: Error) => void, handleTermination: () => void }} Listener
 */

/**
 * A client that can send the requests in `Part`, which is the subset of `Requests` that one module uses.
 * @template Part
 * @typedef {{ call<Name extends CallName & keyof Part>(name: Name, parameters: Parameters<Requests[Name]>, options?: CallOptions):
 *   Promise<Awaited<ReturnType<Requests[Name]>>> }} Caller
 */

/** The interval between pings of a busy worker, in milliseconds. */
const PING_INTERVAL_MS = 1000;
/** The maximum number of unanswered pings. If the worker does not answer the last of them within an interval, the page terminates it. */
const MAX_UNANSWERED_PINGS = 10;

/** The page's end of the connection to the worker. */
export class Bench {
  /**
   * @param {() => WorkerLike} makeWorker
   * @param {ArrayBuffer} module
   * @param {Example[]} examples
   */
  constructor(makeWorker, module, examples) {
    this.makeWorker = makeWorker;
    this.module = module;
    this.examples = examples;
    /** @type {Listener} */
    this.listener = { handleFrame: () => {}, handleFailure: () => {}, handleTermination: () => {} };
    /** @type {Map<number, PendingRequest>} */
    this.pendingRequests = new Map();
    /** @type {WorkerLike | null} */
    this.worker = null;
    this.lastRequestNumber = 0;
    this.unansweredPings = 0;
    /** True while the worker runs at full speed and sends frames without a request. */
    this.isRunning = false;
    /** True if a worker that does not answer pings must not be terminated: the prover does not answer while it works. */
    this.allowsSilence = false;
    /** The size of a session file in bytes. */
    this.size = 0;
    /** @type {ArrayBuffer[]} buffers of received files; the next request returns them to the worker */
    this.spareBuffers = [];
    setInterval(() => this.pingWorker(), PING_INTERVAL_MS);
  }

  /** Starts a worker. Resolves after the worker has loaded the module; rejects if that fails. */
  async start() {
    const worker = this.makeWorker();
    this.worker = worker;
    worker.addEventListener("message", (event) => worker === this.worker && this.handleMessage(event.data));
    worker.addEventListener("error", (event) => {
      event.preventDefault();
      if (worker === this.worker) this.terminateSilentWorker();
    });
    const size = await this.call("load", [this.module, this.examples]);
    this.size = size;
  }

  /**
   * Sends a request. Resolves to its result, or rejects with its error.
   * @template {CallName} Name
   * @param {Name} name
   * @param {Parameters<Requests[Name]>} parameters
   * @param {CallOptions} [options] a progress callback, and a signal to cancel a call that serves lines; a cancelled call has no effect
   * @returns {Promise<Awaited<ReturnType<Requests[Name]>>>}
   */
  call(name, parameters, options = {}) {
    const { signal, progress = () => {} } = options;
    this.lastRequestNumber += 1;
    const { lastRequestNumber: requestNumber } = this;
    if (signal) signal.addEventListener("abort", () => this.cancel(requestNumber));
    return new Promise((resolve, reject) => {
      if (!this.worker) {
        reject(new WorkerDiedError());
        return;
      }
      this.pendingRequests.set(requestNumber, { resolve, reject, progress });
      const spareBuffers = this.spareBuffers.splice(0);
      this.send({ kind: "request", number: requestNumber, call: name, parameters, spare: spareBuffers }, spareBuffers);
    });
  }

  /** The number of the oldest request without a reply. */
  get oldestRequestNumber() {
    return this.pendingRequests.keys().next().value;
  }

  /**
   * @param {ToWorker} message
   * @param {Transferable[]} [transfer]
   */
  send(message, transfer = []) {
    if (this.worker) this.worker.postMessage(message, transfer);
  }

  /** @param {ToPage} message */
  handleMessage(message) {
    this.unansweredPings = 0;
    if (message.kind === "frame") this.listener.handleFrame(message.frame);
    if (message.kind === "failed") this.listener.handleFailure(unpackError(message.error));
    if (message.kind !== "reply" && message.kind !== "early" && message.kind !== "progress") return;
    const request = this.pendingRequests.get(message.number);
    if (!request) return;
    if (message.kind === "progress") {
      request.progress(message.done, message.total);
      return;
    }
    // An early reply is ignored while older requests wait for their replies. The request then waits for its regular reply.
    if (message.kind === "early" && message.number !== this.oldestRequestNumber) return;
    this.pendingRequests.delete(message.number);
    if (message.kind === "reply" && message.error) request.reject(unpackError(message.error));
    else request.resolve(message.result);
  }

  /**
   * Returns the buffer of a received file to the worker: at once at full speed, otherwise with the next request. Ignores a buffer whose
   * size differs from that of a session file.
   * @param {ArrayBuffer} buffer
   */
  returnBuffer(buffer) {
    if (buffer.byteLength !== this.size) return;
    if (this.isRunning) this.send({ kind: "spare", buffer }, [buffer]);
    else this.spareBuffers.push(buffer);
  }

  /**
   * Asks the worker to cancel a request. Terminates the worker if the request is still pending after two ping intervals.
   * @param {number} number
   */
  cancel(number) {
    if (!this.pendingRequests.has(number)) return;
    this.send({ kind: "cancel", number });
    setTimeout(() => {
      if (this.pendingRequests.has(number)) this.terminateSilentWorker();
    }, 2 * PING_INTERVAL_MS);
  }

  /**
   * Pings the worker if it has unanswered requests or runs the machine at full speed. The limit is a number of pings, not a time, because
   * the computer can sleep.
   */
  pingWorker() {
    if (this.allowsSilence || (this.pendingRequests.size === 0 && !this.isRunning)) {
      this.unansweredPings = 0;
      return;
    }
    this.unansweredPings += 1;
    if (this.unansweredPings > MAX_UNANSWERED_PINGS) this.terminateSilentWorker();
    else this.send({ kind: "ping" });
  }

  /** Terminates a worker that does not answer or has failed, rejects its requests, and calls the listener's `handleTermination`. */
  terminateSilentWorker() {
    if (!this.worker) return;
    this.end();
    this.listener.handleTermination();
  }

  /** Terminates the worker and rejects its requests. */
  end() {
    if (!this.worker) return;
    this.worker.terminate();
    this.worker = null;
    this.isRunning = false;
    this.unansweredPings = 0;
    const pending = [...this.pendingRequests.values()];
    this.pendingRequests.clear();
    for (const { reject } of pending) reject(new WorkerDiedError());
  }
}
