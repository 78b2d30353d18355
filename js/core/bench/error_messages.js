// Formats error messages and durations for users.

import { BenchRefusal, BenchTrap, CancelledError, WorkerDiedError } from "./bench_errors.js";
import { formatQuantity } from "./numbers.js";
import * as say from "../../words/bench.js";

/** The messages for errors, with the meanings of the bench's error numbers. */
export class ErrorMessages {
  /** @param {Record<string, string>} refusals the meanings of the bench's error numbers, by number */
  constructor(refusals) {
    this.refusals = refusals;
  }

  /**
   * Returns the meaning of an error number of the bench.
   * @param {number} number
   */
  refusalMeaning(number) {
    return this.refusals[number] || say.UNKNOWN_REFUSAL;
  }

  /**
   * Returns the message for an error. If the bench reported the error, the message includes the error number.
   * @param {unknown} error
   */
  errorMessage(error) {
    if (error instanceof BenchRefusal) return `${error.message}: ${this.refusalMeaning(error.number)}`;
    if (error instanceof BenchTrap) return say.moduleStopped(error.message);
    if (error instanceof WorkerDiedError) return say.restartedMessage(error.message);
    return (error instanceof Error && error.message) || String(error);
  }

  /**
   * Returns the message for a session call that failed or that the user cancelled.
   * @param {unknown} error
   */
  failureMessage(error) {
    if (error instanceof CancelledError) return say.CALL_CANCELLED;
    if (error instanceof BenchRefusal || error instanceof BenchTrap || error instanceof WorkerDiedError) {
      return say.notDoneMessage(this.errorMessage(error));
    }
    return say.pageFailed(this.errorMessage(error));
  }
}

/**
 * Returns the number of errors as text, such as `2 errors`.
 * @param {number} count
 */
export function formatErrorCount(count) {
  return formatQuantity(count, "error");
}

/**
 * Formats a duration, rounded to seconds, with its two largest units that are not 0, such as `1 hour 2 minutes`. Returns "" for less than
 * half a second.
 * @param {number} milliseconds
 */
export function formatDuration(milliseconds) {
  const seconds = Math.round(milliseconds / 1000);
  /** @type {[number, string][]} */
  const parts = [[Math.floor(seconds / 3600), "hour"], [Math.floor(seconds / 60) % 60, "minute"], [seconds % 60, "second"]];
  const units = parts.filter(([count]) => count > 0).map(([count, word]) => formatQuantity(count, word));
  return units.slice(0, 2).join(" ");
}
