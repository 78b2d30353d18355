// Session locks: a session can be open in only one tab at a time.

import { withTimeout } from "./store.js";

/** The maximum number of attempts to acquire a lock, and the time in milliseconds between two attempts. */
const MAX_ATTEMPTS = 6;
const RETRY_DELAY_MS = 150;
/**
 * The name of a lock that the page requests only to find out whether locks work. A browser that blocks site data rejects all lock requests.
 */
const PROBE_LOCK_NAME = "fethsaim probe";

/** @typedef {() => void} Release releases a lock */

export class Locks {
  /** Resolves to the browser's locks. If the browser has no working locks, resolves to substitutes that never block. */
  static async find() {
    if (!navigator.locks) return new Locks(null);
    try {
      await withTimeout(navigator.locks.request(PROBE_LOCK_NAME, { mode: "shared" }, () => {}));
      return new Locks(navigator.locks);
    } catch {
      return new Locks(null);
    }
  }

  /** @param {LockManager | null} manager null if the browser has no working locks; every lock can then be acquired */
  constructor(manager) {
    this.manager = manager;
    this.areAvailable = manager !== null;
  }

  /**
   * Acquires a session's lock for this tab. Resolves to a function that releases the lock, or to null if another tab holds the lock. During
   * a reload, the old page can still hold the lock for a moment, so the lock is requested several times.
   * @param {string} id
   * @returns {Promise<Release | null>}
   */
  async acquire(id) {
    for (let attempt = 0; attempt < MAX_ATTEMPTS; attempt++) {
      const release = await this.requestLock(`fethsaim session ${id}`);
      if (release) return release;
      await new Promise((resolve) => setTimeout(resolve, RETRY_DELAY_MS));
    }
    return null;
  }

  /**
   * @param {string} name
   * @returns {Promise<Release | null>}
   */
  requestLock(name) {
    const { manager } = this;
    return new Promise((resolve, reject) => {
      if (!manager) {
        resolve(() => {});
        return;
      }
      manager.request(name, { ifAvailable: true }, (lock) => {
        if (lock === null) {
          resolve(null);
          return undefined;
        }
        return new Promise((release) => resolve(() => release(undefined)));
      }).catch(reject);
    });
  }
}
