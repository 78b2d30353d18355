// Predicts which keys will be pressed after all pending changes: the changes in transit to the worker, and the changes in the worker's
// queue. Without this prediction, a key that the user clicks twice in quick succession could stay pressed.

import { isSameKey } from "./key_place.js";

/**
 * @typedef {import("../engine/key_queue.js").KeyChange} KeyChange
 * @typedef {import("./key_place.js").Key} Key
 * @typedef {{ key: Key, word: "press" | "release" | "forget" }} RequestedChange a key change, or `forget` to drop the queued changes
 *   of the key
 */

/** The key changes that the worker has not made yet. */
export class PendingKeys {
  constructor() {
    /** @type {KeyChange[]} the worker's queue as of its last report */
    this.waitingChanges = [];
    /** @type {RequestedChange[]} the changes in transit to the worker */
    this.changesInTransit = [];
  }

  /**
   * Adds a change that is in transit to the worker. Returns a function that the caller must call when the worker has received the change.
   * @param {RequestedChange} change
   */
  addInTransit(change) {
    this.changesInTransit.push(change);
    return () => {
      this.changesInTransit = this.changesInTransit.filter((pendingChange) => pendingChange !== change);
    };
  }

  /**
   * Returns whether a key will be pressed after all pending changes.
   * @param {Key} key
   * @param {boolean} isDown true if the bench reports the key as pressed
   */
  willBeDown(key, isDown) {
    /** @type {RequestedChange[]} */
    const pendingChanges = [...this.waitingChanges, ...this.changesInTransit];
    const lastChange = pendingChanges.filter((pendingChange) => isSameKey(pendingChange.key, key)).pop();
    return lastChange && lastChange.word !== "forget" ? lastChange.word === "press" : isDown;
  }
}
