// A connection of the debug adapter protocol (DAP). It receives requests, and sends responses and events. The first request must be
// `initialize`. The connection handles requests one after another, in the order of arrival. Only `cancel` is handled at once.

import { CancelledError } from "../bench/bench_errors.js";
import { getField } from "../server/framing.js";
import { MessageStream } from "../server/message_stream.js";
import { AdapterError, REQUEST_CANCELLED, fail, requireNumber, optionalText, errorMessage } from "./dap_protocol.js";
import * as say from "../../words/adapter.js";
import { INITIALIZE_FIRST, INITIALIZE_ONCE, NOT_JSON } from "../../words/server.js";

/**
 * A request that has no response yet. `seq` is its number. `hasBegun` is false while the request is queued. A long-running handler checks
 * `isCancelled`, and throws CancelledError if it is true.
 * @typedef {{ seq: number, command: string, hasBegun: boolean, isCancelled: boolean }} PendingRequest
 *
 * A request handler. It returns the response body, or a promise of the body.
 * @typedef {(args: any, pending: PendingRequest) => unknown} RequestHandler
 */

/** A response body, with an action that runs after the response is sent. */
export class ResponseWithFollowUp {
  /**
   * @param {object | undefined} body
   * @param {() => void} followUp
   */
  constructor(body, followUp) {
    this.body = body;
    this.followUp = followUp;
  }
}

export class AdapterConnection extends MessageStream {
  /** @param {(bytes: Uint8Array) => void} write */
  constructor(write) {
    super(write);
    /** @type {Record<string, RequestHandler>} */
    this.handlers = {};
    this.lastSeq = 0;
    this.isOpen = false;
    /** Resolves when all queued requests have responses. A new request waits for this promise. */
    this.queueDone = Promise.resolve();
    /** @type {Set<PendingRequest>} the requests that have no response yet, both queued and running */
    this.pendingRequests = new Set();
    /** @type {(id: string) => void} stops the task that has the given progress id */
    this.stopTask = (id) => fail(say.unknownProgressIdMessage(id));
  }

  /** @param {string} message */
  reportStreamError(message) {
    this.rejectRequest(0, "", new AdapterError(message));
  }

  /** @param {string} text */
  serveMessage(text) {
    /** @type {any} */
    let message;
    try {
      message = JSON.parse(text);
    } catch {
      this.rejectRequest(0, "", new AdapterError(NOT_JSON));
      return;
    }
    const [seq, type, command] = ["seq", "type", "command"].map((name) => getField(message, name));
    // The adapter sends no requests and expects no events, so it ignores responses and events.
    if (type === "response" || type === "event") return;
    const requestSeq = Number.isSafeInteger(seq) ? seq : 0;
    if (type !== "request" || typeof command !== "string" || requestSeq !== seq) {
      const errorText = say.MESSAGE_SYNTAX;
      this.rejectRequest(requestSeq, typeof command === "string" ? command : "", new AdapterError(errorText));
      return;
    }
    const pendingRequest = { seq: requestSeq, command, hasBegun: false, isCancelled: false };
    this.pendingRequests.add(pendingRequest);
    if (command === "cancel" && this.isOpen) this.serve(pendingRequest, message.arguments);
    else this.queueDone = this.queueDone.then(() => this.serve(pendingRequest, message.arguments));
  }

  /**
   * Returns the error message for a request that arrives before `initialize`, and for a second `initialize`. Returns "" for any other
   * request.
   * @param {string} command
   */
  lifecycleError(command) {
    if (!this.isOpen && command !== "initialize") return INITIALIZE_FIRST;
    return this.isOpen && command === "initialize" ? INITIALIZE_ONCE : "";
  }

  /**
   * @param {PendingRequest} pendingRequest
   * @param {any} args
   */
  async serve(pendingRequest, args) {
    // A request that was cancelled in the queue already has its response.
    if (!this.pendingRequests.has(pendingRequest)) return;
    const { seq, command } = pendingRequest;
    pendingRequest.hasBegun = true;
    try {
      const errorText = this.lifecycleError(command);
      if (errorText) throw new AdapterError(errorText);
      const handler = Object.prototype.hasOwnProperty.call(this.handlers, command) && this.handlers[command];
      if (!handler) throw new AdapterError(say.unsupportedRequestMessage(command));
      const result = await handler(args, pendingRequest);
      if (command === "initialize") this.isOpen = true;
      const body = result instanceof ResponseWithFollowUp ? result.body : result;
      this.pendingRequests.delete(pendingRequest);
      this.send({ type: "response", request_seq: seq, success: true, command, ...(body === undefined ? {} : { body }) });
      if (result instanceof ResponseWithFollowUp) this.runFollowUp(result);
    } catch (thrown) {
      this.pendingRequests.delete(pendingRequest);
      const isCancelled = pendingRequest.isCancelled && thrown instanceof CancelledError;
      this.rejectRequest(seq, command, isCancelled ? new AdapterError(REQUEST_CANCELLED) : thrown);
    }
  }

  /**
   * Runs the action that follows a response. If the action throws, prints the error to the debug console, because the response has
   * already been sent.
   * @param {ResponseWithFollowUp} response
   */
  runFollowUp({ followUp }) {
    try {
      followUp();
    } catch (thrown) {
      this.sendEvent("output", { category: "stderr", output: `${errorMessage(thrown)}\n` });
    }
  }

  /**
   * Handles the `cancel` request, which names another request or a task. Rejects the named request at once if it is queued. If its handler
   * is running, sets `isCancelled`. If the request already has its response, does nothing. Stops the task with the named progress id.
   * @param {any} args
   */
  cancel(args) {
    const [requestId, progressId] = [requireNumber(args, "requestId", 0), optionalText(args, "progressId")];
    if (progressId !== "") this.stopTask(progressId);
    for (const pending of [...this.pendingRequests].filter(({ seq, command }) => seq === requestId && command !== "cancel")) {
      pending.isCancelled = true;
      if (pending.hasBegun) continue;
      this.pendingRequests.delete(pending);
      this.rejectRequest(pending.seq, pending.command, new AdapterError(REQUEST_CANCELLED));
    }
  }

  /**
   * Sends the error response for a request that failed.
   * @param {number} seq the number of the request, 0 if unknown
   * @param {string} command
   * @param {unknown} thrown
   */
  rejectRequest(seq, command, thrown) {
    const errorText = errorMessage(thrown);
    const showUser = thrown instanceof AdapterError && thrown.isShown;
    const error = { id: 1, format: errorText.replace(/[{}]/g, "'"), showUser };
    this.send({ type: "response", request_seq: seq, success: false, command, message: errorText, body: { error } });
  }

  /**
   * @param {string} event
   * @param {object} [body]
   */
  sendEvent(event, body) {
    this.send({ type: "event", event, ...(body ? { body } : {}) });
  }

  /** @param {object} message */
  send(message) {
    this.lastSeq += 1;
    this.writeMessage({ seq: this.lastSeq, ...message });
  }
}
