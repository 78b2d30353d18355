// When the user leaves the page, saves the texts that are not yet in the session store. In WebKit, the last write to that store does not
// complete. Therefore, these texts are also written to the browser's local storage, which saves them at once.

import { getBrowserStore } from "../ui/preferences.js";

/**
 * @typedef {import("./store.js").SessionRecord} SessionRecord
 * @typedef {Pick<Storage, "getItem" | "setItem" | "removeItem">} TextStore
 */

const KEY_PREFIX = "fethsaim.left.";

/** @param {SessionRecord} record */
function formatTexts({ boardText, programText, testText, propertiesText }) {
  return JSON.stringify({ boardText, programText, testText, propertiesText });
}

export class UnsavedTexts {
  /** @param {TextStore | null} store null if the browser has no storage */
  constructor(store = getBrowserStore()) {
    this.store = store;
    /** The current session's texts in the session store, as JSON. */
    this.storedTexts = "";
  }

  /**
   * Records that the session store has the texts of a session.
   * @param {SessionRecord} record
   */
  markStored(record) {
    this.storedTexts = formatTexts(record);
  }

  /**
   * Saves the texts of a session in local storage when the user leaves the page, unless the session store has these texts.
   * @param {SessionRecord} record
   */
  saveOnLeave(record) {
    const texts = formatTexts(record);
    if (texts === this.storedTexts) return;
    this.accessStore((store) => store.setItem(KEY_PREFIX + record.id, JSON.stringify({ revision: record.revision, texts })));
  }

  /**
   * If local storage has newer texts than a record from the session store, copies these texts into the record. The texts stay in local
   * storage until the session store has them, because the user can leave the page again before the next write.
   * @param {SessionRecord} record
   */
  restore(record) {
    this.accessStore((store) => {
      const { revision = 0, texts = "{}" } = JSON.parse(store.getItem(KEY_PREFIX + record.id) || "{}");
      if (revision > record.revision) Object.assign(record, JSON.parse(texts), { revision });
      else store.removeItem(KEY_PREFIX + record.id);
    });
  }

  /**
   * Removes the texts of a deleted session from local storage.
   * @param {string} id
   */
  removeTexts(id) {
    this.accessStore((store) => store.removeItem(KEY_PREFIX + id));
  }

  /** @param {(store: TextStore) => void} action */
  accessStore(action) {
    try {
      if (this.store) action(this.store);
    } catch {
      // Without local storage, WebKit loses the text that the user typed immediately before leaving the page.
    }
  }
}
