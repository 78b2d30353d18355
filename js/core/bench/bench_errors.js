// The errors that a bench call can throw in the page and in the worker, and their representation in messages.

import * as say from "../../words/bench.js";

/** The error of a call that the bench answers with an error number (`no NN`). */
export class BenchRefusal extends Error {
  /** @param {number} number */
  constructor(number) {
    super(`no ${number}`);
    this.number = number;
  }
}

/** The error of a call in which the WebAssembly module trapped. The engine restarts the module before it throws this error. */
export class BenchTrap extends Error {}

/** The error of a call that the user cancelled. The call has no effect. */
export class CancelledError extends Error {
  constructor() {
    super(say.CANCELLED);
  }
}

/** The error of a call whose worker stopped answering or was terminated. */
export class WorkerDiedError extends Error {
  constructor() {
    super(say.WORKER_STOPPED);
  }
}

/** The error number of the bench for a failed allocation. */
export const OUT_OF_MEMORY = 90;

/**
 * The representation of an error in a message between page and worker.
 * @typedef {{ kind: "refusal" | "trap" | "cancelled" | "other", message: string, number: number }} PackedError
 */

/**
 * Converts an error to its message representation.
 * @param {unknown} error
 * @returns {PackedError}
 */
export function packError(error) {
  if (error instanceof BenchRefusal) return { kind: "refusal", message: error.message, number: error.number };
  if (error instanceof BenchTrap) return { kind: "trap", message: error.message, number: 0 };
  if (error instanceof CancelledError) return { kind: "cancelled", message: error.message, number: 0 };
  return { kind: "other", message: error instanceof Error ? error.message : String(error), number: 0 };
}

/**
 * Converts the message representation of an error back to an error.
 * @param {PackedError} error
 * @returns {Error}
 */
export function unpackError({ kind, message, number }) {
  if (kind === "refusal") return new BenchRefusal(number);
  if (kind === "trap") return new BenchTrap(message);
  if (kind === "cancelled") return new CancelledError();
  return new Error(message);
}
