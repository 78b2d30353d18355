// The deleted sessions, which can be restored until the page is closed.

import { UnsavedTexts } from "./unsaved_texts.js";
import { describeStoreError } from "./store.js";
import * as say from "../../words/session.js";

/**
 * @typedef {import("./locks.js").Locks} Locks
 * @typedef {import("./store.js").SessionRecord} SessionRecord
 * @typedef {import("./store.js").SessionStore} SessionStore
 */

/** @param {SessionRecord[]} records */
export function formatNames(records) {
  return records.length === 1 ? `"${records[0].name}"` : say.sessionCount(records.length);
}

export class Trash {
  /**
   * @param {SessionStore} store
   * @param {Locks} locks
   * @param {(message: string) => void} showNotice shows the reason why a session was not deleted or restored
   */
  constructor(store, locks, showNotice) {
    this.store = store;
    this.locks = locks;
    this.showNotice = showNotice;
    this.unsavedTexts = new UnsavedTexts();
    /** @type {SessionRecord[]} the sessions deleted since the page was opened, most recent first */
    this.deletedRecords = [];
  }

  /**
   * Deletes sessions. Resolves to the sessions that were deleted. If a session is open in another tab, reports that to the user instead of
   * deleting the session.
   * @param {SessionRecord[]} records
   */
  async deleteSessions(records) {
    const deletedRecords = [];
    for (const record of records) if (await this.deleteSession(record)) deletedRecords.push(record);
    this.deletedRecords = [...deletedRecords, ...this.deletedRecords];
    return deletedRecords;
  }

  /**
   * Deletes a session. Resolves to true if it was deleted. Otherwise, reports the reason to the user and resolves to false.
   * @param {SessionRecord} record
   */
  async deleteSession(record) {
    const release = await this.locks.acquire(record.id);
    if (!release) {
      this.showNotice(say.openElsewhere(record.name));
      return false;
    }
    try {
      // Include changes that another tab has made since the session was listed.
      const newestRecord = await this.store.get(record.id);
      if (newestRecord) Object.assign(record, newestRecord);
      this.unsavedTexts.restore(record);
      await this.store.remove(record.id);
      this.unsavedTexts.removeTexts(record.id);
      return true;
    } catch (error) {
      this.showNotice(say.notDeletedMessage(record.name, describeStoreError(error)));
      return false;
    } finally {
      release();
    }
  }

  /**
   * Restores sessions. If the store rejects a session, reports that to the user, and the session stays in the trash.
   * @param {SessionRecord[]} records
   */
  async restoreSessions(records) {
    for (const record of records.filter((candidate) => this.deletedRecords.includes(candidate))) {
      try {
        // The store no longer has the deleted record, so the record's revisions start again at 0.
        record.revision = 0;
        await this.store.put(record);
        this.deletedRecords = this.deletedRecords.filter((candidate) => candidate !== record);
      } catch (error) {
        this.showNotice(say.notRestoredMessage(record.name, describeStoreError(error)));
      }
    }
  }
}
