// A session that is open in this tab: its record, with the last state that the bench reported, and the writes of the record to the store.

import { shortenName } from "../../core/session/names.js";
import { UnsavedTexts } from "./unsaved_texts.js";
import { withTimeout, describeStoreError } from "./store.js";

/**
 * @typedef {import("./locks.js").Release} Release
 * @typedef {import("./store.js").SessionRecord} SessionRecord
 * @typedef {import("./store.js").SessionStore} SessionStore
 */

/** The number of session records that this page has created. */
let createdCount = 0;

/**
 * Returns a new session record with a unique id.
 * @param {string} name
 * @param {Uint8Array} file
 * @param {{ boardText: string, programText: string, testText?: string, propertiesText?: string, breakpoints?: SessionRecord["breakpoints"],
 *   watched?: SessionRecord["watched"], wired?: SessionRecord["wired"] }} content
 * @param {boolean} runs true if time must start as soon as the session is opened
 * @returns {SessionRecord}
 */
export function createSessionRecord(name, file, content, runs = false) {
  const { boardText, programText, testText = "", propertiesText = "", breakpoints, watched, wired } = content;
  createdCount += 1;
  const id = `${Date.now().toString(36)}-${createdCount}-${Math.floor(Math.random() * 1e9).toString(36)}`;
  const texts = { boardText, programText, testText, propertiesText };
  const record = { id, name: shortenName(name) || "session", file, ...texts, runs, revision: 0, changed: Date.now() };
  return { ...record, ...(breakpoints ? { breakpoints } : {}), ...(watched ? { watched } : {}), ...(wired ? { wired } : {}) };
}

export class OpenSession {
  /**
   * @param {SessionStore} store
   * @param {SessionRecord} record
   * @param {Release} release releases the session's lock
   * @param {string} example the example's name if the session is an unchanged example, which is not saved; otherwise ""
   */
  constructor(store, record, release, example = "") {
    this.store = store;
    this.record = record;
    this.release = release;
    this.example = example;
    this.unsavedTexts = new UnsavedTexts();
    if (record.revision > 0) this.unsavedTexts.markStored(record);
    /** @type {Promise<string>} the write in progress */
    this.currentWrite = Promise.resolve("");
    /** @type {Promise<string> | null} the write that starts when the current write ends; null if none is waiting */
    this.nextWrite = null;
  }

  /**
   * Puts the new bytes of the session file into the record. Returns the buffer of the old bytes for reuse.
   * @param {ArrayBuffer} file
   * @returns {ArrayBuffer}
   */
  replaceFile(file) {
    const oldBuffer = this.record.file.buffer;
    this.record.file = new Uint8Array(file);
    return oldBuffer;
  }

  /**
   * Writes the session. Resolves to "" when the session is on the disk, otherwise to an error message. An unchanged example is not written.
   * Calls during a write share the next write. If the store does not answer in time, the write counts as failed, and later writes wait
   * until the store answers.
   * @returns {Promise<string>}
   */
  save() {
    return this.isUntouched ? Promise.resolve("") : withTimeout(this.queueWrite()).catch(describeStoreError);
  }

  /** @returns {Promise<string>} */
  queueWrite() {
    if (this.nextWrite === null) {
      this.nextWrite = this.currentWrite.then(() => {
        this.nextWrite = null;
        this.currentWrite = this.write();
        return this.currentWrite;
      });
    }
    return this.nextWrite;
  }

  /**
   * Writes the session when the user leaves the page and the page cannot wait. Also saves the texts in local storage. An unchanged example
   * is not written. Writes nothing if the store must first answer a read. That answer would arrive too late, and the unfinished write would
   * block other pages. Resolves to the same values as `save`.
   */
  saveNow() {
    if (!this.store.isAtomic || this.isUntouched) return Promise.resolve("");
    const write = this.write();
    this.unsavedTexts.saveOnLeave(this.record);
    return write;
  }

  /** True if the session is an unchanged example. */
  get isUntouched() {
    return this.example !== "";
  }

  /** Records that the user has changed the session. From then on, the session is saved. Returns true if this is the first change. */
  markChanged() {
    const { isUntouched } = this;
    this.example = "";
    return isUntouched;
  }

  /**
   * Writes the session to the store. Resolves to "", or to the reason why the session was not saved.
   * @returns {Promise<string>}
   */
  async write() {
    try {
      this.record.changed = Date.now();
      const writtenRecord = { ...this.record };
      await this.store.put(this.record);
      this.unsavedTexts.markStored(writtenRecord);
      return "";
    } catch (error) {
      return describeStoreError(error);
    }
  }
}
