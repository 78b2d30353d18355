// The session store in the browser's IndexedDB. The page itself writes to the store: when the user leaves the page, the browser terminates
// the worker at once, but still completes the page's requests.

import * as say from "../../words/session.js";

/**
 * A session in the store: its file, its name, and the texts of the editors, which the file does not contain. Records from older versions
 * have no tests text and no properties text.
 * @typedef {object} SessionRecord
 * @property {string} id The unique id of the session.
 * @property {string} name The session's name.
 * @property {Uint8Array} file The bytes of the session file.
 * @property {string} boardText The board's text.
 * @property {string} programText The source.
 * @property {string} [testText] The text of the Tests tab.
 * @property {string} [propertiesText] The text of the Properties tab.
 * @property {boolean} runs True if time is running, so that time resumes after a reload.
 * @property {number} revision The number of times that the record has been stored.
 * @property {number} changed The time of the last change, in milliseconds since 1970.
 * @property {import("../../core/time/cycles.js").StoredCycles} [cycles] The cycle counts that the page shows.
 * @property {boolean} [isTitled] True if the name is the title in the texts, because the user has not named the session.
 * @property {import("../../core/debug/breakpoints.js").SavedBreakpoint[]} [breakpoints] The breakpoints of the source.
 * @property {string[]} [watched] The expressions of the watch list.
 * @property {import("../../core/debug/goals.js").Goal} [goal] The goal of the run in progress.
 * @property {[string, import("../../core/board/wiring.js").Point][]} [places] The positions of dragged parts in the board's picture.
 * @property {import("../../core/engine/printer_codes.js").PrintoutData} [printed] The codes that were sent to the board's printer.
 * @property {import("../../core/waves/wave_rows.js").StoredRows} [rows] The arrangement of the rows in the logic analyser.
 * @property {import("../../core/board/wired_board_text.js").WiredText[]} [wired] The texts of the last boards, beginning with the board in
 *   use.
 */

/**
 * A store for sessions.
 * @typedef {object} SessionStore
 * @property {boolean} isPersistent True if the sessions outlast the page.
 * @property {boolean} isAtomic True if `put` sends all its requests at once, so that they complete even while the page closes.
 * @property {() => Promise<SessionRecord[]>} getAll Resolves to all sessions.
 * @property {(id: string) => Promise<SessionRecord | undefined>} get Resolves to the session with this id, or to undefined if there is
 *   none.
 * @property {(record: SessionRecord) => Promise<void>} put Stores a session and increments its revision.
 * @property {(id: string) => Promise<void>} remove Deletes the session with this id.
 */

/** The error that is thrown if a session cannot be saved or read. Its message is meant for the user. */
export class StoreError extends Error {}

/** The time in milliseconds after which a store that does not answer counts as failed. Its requests may still succeed later. */
const STORE_TIMEOUT_MS = 10000;

/**
 * Resolves to the result of a browser service, such as the store. Rejects after STORE_TIMEOUT_MS, so that the page never waits forever.
 * @template Result
 * @param {Promise<Result>} promise
 * @returns {Promise<Result>}
 */
export function withTimeout(promise) {
  return new Promise((resolve, reject) => {
    const timer = setTimeout(() => reject(new StoreError(say.STORE_SILENT)), STORE_TIMEOUT_MS);
    promise.then(resolve, reject).finally(() => clearTimeout(timer));
  });
}

/**
 * @template Result
 * @param {IDBRequest<Result>} request
 * @returns {Promise<Result>}
 */
function toPromise(request) {
  return new Promise((resolve, reject) => {
    request.onsuccess = () => resolve(request.result);
    request.onerror = () => reject(request.error);
  });
}

/** @returns {Promise<IDBDatabase>} */
function openDatabase() {
  return new Promise((resolve, reject) => {
    const request = indexedDB.open("fethsaim", 1);
    request.onupgradeneeded = () => request.result.createObjectStore("sessions", { keyPath: "id" });
    request.onsuccess = () => resolve(request.result);
    request.onerror = () => reject(request.error);
    request.onblocked = () => reject(new Error(say.OLDER_STORE));
  });
}

/** @implements {SessionStore} */
export class Store {
  /**
   * @param {Promise<boolean>} hasLocks resolves to true if locks prevent a session from being open in two tabs
   * @returns {Promise<Store>}
   */
  static async open(hasLocks) {
    const database = await openDatabase();
    return new Store(database, await hasLocks);
  }

  /**
   * @param {IDBDatabase} database
   * @param {boolean} hasLocks
   */
  constructor(database, hasLocks) {
    this.database = database;
    this.isPersistent = true;
    this.isAtomic = hasLocks;
    // Close the database when another tab needs a newer version of it. Otherwise that tab would wait forever.
    database.onversionchange = () => database.close();
  }

  get sessions() {
    return this.database.transaction("sessions").objectStore("sessions");
  }

  /** @returns {Promise<SessionRecord[]>} */
  async getAll() {
    return withTimeout(toPromise(this.sessions.getAll()));
  }

  /**
   * @param {string} id
   * @returns {Promise<SessionRecord | undefined>}
   */
  async get(id) {
    return withTimeout(toPromise(this.sessions.get(id)));
  }

  /**
   * Stores a record. Resolves when the record is on the disk. If the browser has locks, all requests are sent at once, so that they
   * complete even while the page is closing.
   * @param {SessionRecord} record
   * @returns {Promise<void>}
   */
  async put(record) {
    if (!this.isAtomic) return this.putIfUnchanged(record);
    return new Promise((resolve, reject) => {
      const transaction = this.openTransaction(resolve, reject);
      record.revision += 1;
      transaction.objectStore("sessions").put(record);
      transaction.commit();
    });
  }

  /**
   * Stores a record in a browser without locks. Rejects a record that is not based on the stored revision, so that two tabs never overwrite
   * each other's changes.
   * @param {SessionRecord} record
   * @returns {Promise<void>}
   */
  putIfUnchanged(record) {
    return new Promise((resolve, reject) => {
      /** @type {Error | null} */
      let revisionError = null;
      // The record's bytes may change before the store has answered, so copy them.
      const nextRecord = { ...record, file: record.file.slice(), revision: record.revision + 1 };
      const finish = () => {
        record.revision = nextRecord.revision;
        resolve();
      };
      const transaction = this.openTransaction(finish, (error) => reject(revisionError || error));
      const request = transaction.objectStore("sessions").get(record.id);
      request.onsuccess = () => {
        if ((request.result ? request.result.revision : 0) === record.revision) {
          transaction.objectStore("sessions").put(nextRecord);
        } else {
          revisionError = new StoreError(say.CHANGED_ELSEWHERE);
          transaction.abort();
        }
      };
    });
  }

  /**
   * Returns a transaction that calls `resolve` when its changes are on the disk, or `reject` if it is aborted.
   * @param {() => void} resolve
   * @param {(error: Error) => void} reject
   */
  openTransaction(resolve, reject) {
    const transaction = this.database.transaction("sessions", "readwrite", { durability: "strict" });
    transaction.oncomplete = () => resolve();
    transaction.onabort = () => reject(new StoreError(describeStoreError(transaction.error)));
    return transaction;
  }

  /**
   * @param {string} id
   * @returns {Promise<void>}
   */
  remove(id) {
    return new Promise((resolve, reject) => {
      this.openTransaction(resolve, reject).objectStore("sessions").delete(id);
    });
  }
}

/**
 * Returns the message that says why a session could not be saved or read.
 * @param {unknown} error
 */
export function describeStoreError(error) {
  if (error instanceof StoreError) return error.message;
  const name = error instanceof DOMException || error instanceof Error ? error.name : say.UNKNOWN_REASON;
  if (name === "QuotaExceededError") return say.NO_SPACE;
  return say.storeFailed(name);
}

/**
 * A store in memory, for browsers without a usable store. It loses all sessions when the page is closed.
 * @implements {SessionStore}
 */
export class MemoryStore {
  constructor() {
    /** @type {Map<string, SessionRecord>} */
    this.records = new Map();
    this.isPersistent = false;
    this.isAtomic = true;
  }

  async getAll() {
    return [...this.records.values()];
  }

  /** @param {string} id */
  async get(id) {
    const record = this.records.get(id);
    return record && { ...record, file: record.file.slice() };
  }

  /** @param {SessionRecord} record */
  async put(record) {
    record.revision += 1;
    this.records.set(record.id, { ...record, file: record.file.slice() });
  }

  /** @param {string} id */
  async remove(id) {
    this.records.delete(id);
  }
}
