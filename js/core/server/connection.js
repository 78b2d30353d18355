// A connection of the language server protocol (LSP). It receives requests and notifications, calls their handlers, and sends responses.
// The client must send `initialize` first, and `shutdown` and `exit` last.

import { getField } from "./framing.js";
import { MessageStream } from "./message_stream.js";
import {
  REQUEST_CANCELLED, INTERNAL_ERROR, INVALID_REQUEST, METHOD_NOT_FOUND, NOT_INITIALIZED, PARSE_ERROR, ProtocolError,
} from "./lsp_protocol.js";
import { CANCELLED } from "../../words/bench.js";
import * as say from "../../words/server.js";

/**
 * @typedef {number | string | null} Id the id of a request
 *
 * A request that has no response yet. If the client cancels the request, the server responds at once and sets `isCancelled`. A long-running
 * handler checks `isCancelled`, and ends early if it is true.
 * @typedef {{ isCancelled: boolean }} PendingRequest
 *
 * A request handler. It returns the result, or a promise of the result.
 * @typedef {(params: any, pending: PendingRequest) => unknown} RequestHandler
 *
 * The handlers of requests and notifications, by method name.
 * @typedef {{ requests: Record<string, RequestHandler>, notifications: Record<string, RequestHandler> }} Handlers
 */

/** The message types of the protocol. */
const ERROR = 1;
const INFORMATION = 3;

/**
 * Returns whether a value can be the id of a request.
 * @param {any} id
 */
function isId(id) {
  return typeof id === "string" || typeof id === "number" || id === null;
}

/** @type {PendingRequest} the second argument of notification handlers; a client cannot cancel a notification */
const UNCANCELLABLE_REQUEST = { isCancelled: false };

export class Connection extends MessageStream {
  /**
   * @param {(bytes: Uint8Array) => void} write
   * @param {(status: number) => void} end ends the process
   */
  constructor(write, end) {
    super(write);
    this.end = end;
    /** @type {Handlers} */
    this.handlers = { requests: {}, notifications: {} };
    /** @type {"new" | "open" | "shut"} the state: before `initialize`, between `initialize` and `shutdown`, or after `shutdown` */
    this.state = "new";
    /** @type {Map<Id, PendingRequest>} the requests without a response */
    this.pendingRequests = new Map();
    /** The number of requests sent to the client. */
    this.sentRequestCount = 0;
  }

  /**
   * Sends an error response without a request id.
   * @param {string} message
   */
  reportStreamError(message) {
    this.rejectRequest(null, new ProtocolError(INVALID_REQUEST, message));
  }

  /**
   * Handles a request or notification. Sends an error response if the message is invalid.
   * @param {string} text
   */
  serveMessage(text) {
    let message;
    try {
      message = JSON.parse(text);
    } catch {
      this.rejectRequest(null, new ProtocolError(PARSE_ERROR, say.NOT_JSON));
      return;
    }
    const [id, method] = [getField(message, "id"), getField(message, "method")];
    // The server ignores responses to its own requests.
    if (method === undefined && isId(id) && ("result" in message || "error" in message)) return;
    if (typeof method !== "string" || getField(message, "jsonrpc") !== "2.0" || !(id === undefined || isId(id))) {
      const errorText = say.MESSAGE_SYNTAX;
      this.rejectRequest(isId(id) ? id : null, new ProtocolError(INVALID_REQUEST, errorText));
    } else if (id === undefined) this.serveNotification(method, message.params);
    else this.serveRequest(id, method, message.params);
  }

  /**
   * Returns the error for a request that is not allowed in the current state; null if it is allowed.
   * @param {string} method
   */
  findLifecycleError(method) {
    if (this.state === "shut") return new ProtocolError(INVALID_REQUEST, say.EXIT_AFTER_SHUTDOWN);
    if (this.state === "new" && method !== "initialize") return new ProtocolError(NOT_INITIALIZED, say.INITIALIZE_FIRST);
    if (this.state === "open" && method === "initialize") return new ProtocolError(INVALID_REQUEST, say.INITIALIZE_ONCE);
    return null;
  }

  /**
   * Calls the handler of a request, and sends its result or its error as the response.
   * @param {Id} id
   * @param {string} method
   * @param {any} params
   */
  async serveRequest(id, method, params) {
    const stateError = this.findLifecycleError(method);
    const handler = Object.prototype.hasOwnProperty.call(this.handlers.requests, method) && this.handlers.requests[method];
    if (stateError || !handler || this.pendingRequests.has(id)) {
      const requestError = handler ? new ProtocolError(INVALID_REQUEST, say.requestPending(id))
        : new ProtocolError(METHOD_NOT_FOUND, say.noMethodMessage(method));
      this.rejectRequest(id, stateError || requestError);
      return;
    }
    const pendingRequest = { isCancelled: false };
    this.pendingRequests.set(id, pendingRequest);
    // The next message can arrive while this function awaits the handler, so the state must change first.
    if (method === "initialize") this.state = "open";
    if (method === "shutdown") this.state = "shut";
    try {
      const result = await handler(params, pendingRequest);
      if (this.removePending(id, pendingRequest)) this.send({ id, result: result === undefined ? null : result });
    } catch (error) {
      if (this.removePending(id, pendingRequest)) this.rejectRequest(id, error);
    }
  }

  /**
   * Removes a request from the pending requests. Returns false if the request was cancelled and therefore already has a response.
   * @param {Id} id
   * @param {PendingRequest} pendingRequest
   */
  removePending(id, pendingRequest) {
    if (pendingRequest.isCancelled) return false;
    return this.pendingRequests.delete(id);
  }

  /**
   * Rejects a pending request that the client cancels.
   * @param {Id} id
   */
  cancel(id) {
    const pending = this.pendingRequests.get(id);
    if (!pending) return;
    pending.isCancelled = true;
    this.pendingRequests.delete(id);
    this.rejectRequest(id, new ProtocolError(REQUEST_CANCELLED, CANCELLED));
  }

  /**
   * Handles `exit`, `$/cancelRequest`, or a notification that has a handler. Ignores any other notification.
   * @param {string} method
   * @param {any} params
   */
  async serveNotification(method, params) {
    if (method === "exit") {
      // If the previous message is a `shutdown` request, its response must be written before the process ends.
      if (this.pendingRequests.size > 0) await null;
      this.end(this.state === "shut" ? 0 : 1);
      return;
    }
    if (method === "$/cancelRequest") {
      this.cancel(getField(params, "id"));
      return;
    }
    const handler = Object.prototype.hasOwnProperty.call(this.handlers.notifications, method) && this.handlers.notifications[method];
    if (this.state !== "open" || !handler) return;
    try {
      await handler(params, UNCANCELLABLE_REQUEST);
    } catch (error) {
      this.logMessage(`${method}: ${error instanceof Error ? error.message : String(error)}`);
    }
  }

  /**
   * Writes an error message to the client's log, for an error that does not belong to a request.
   * @param {string} message
   */
  logMessage(message) {
    this.notify("window/logMessage", { type: ERROR, message });
  }

  /**
   * Shows a message to the user.
   * @param {string} message
   * @param {boolean} isError
   */
  show(message, isError) {
    this.notify("window/showMessage", { type: isError ? ERROR : INFORMATION, message });
  }

  /**
   * Sends a request without parameters to the client. Its response is ignored.
   * @param {string} method
   */
  ask(method) {
    this.sentRequestCount += 1;
    this.send({ id: `mcs4 ${this.sentRequestCount}`, method });
  }

  /**
   * Sends a notification to the client.
   * @param {string} method
   * @param {object} params
   */
  notify(method, params) {
    this.send({ method, params });
  }

  /**
   * Sends the error response for a request that failed.
   * @param {Id} id
   * @param {unknown} error
   */
  rejectRequest(id, error) {
    const code = error instanceof ProtocolError ? error.code : INTERNAL_ERROR;
    this.send({ id, error: { code, message: error instanceof Error ? error.message : String(error) } });
  }

  /**
   * Sends a message to the client.
   * @param {object} message
   */
  send(message) {
    this.writeMessage({ jsonrpc: "2.0", ...message });
  }
}
