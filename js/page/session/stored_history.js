// The recent history of the current session, so that the user can go back in time even after a page reload. A history segment is the
// session file at one moment and the commands since then. The worker reports the commands. When the user leaves the page, the history is
// written to the tab's session storage.

import { fromBase64, toBase64 } from "../../core/session/base64.js";
import * as say from "../../words/session.js";

/**
 * @typedef {import("../../core/engine/timeline.js").PastChanges} PastChanges
 * @typedef {import("../../core/engine/timeline.js").Entry} Entry
 * @typedef {import("../../core/engine/timeline.js").StoredSegment} StoredSegment
 * @typedef {Pick<Storage, "getItem" | "setItem" | "removeItem">} TabStore
 */

const STORAGE_KEY = "fethsaim.past";
/** The maximum numbers of cycles, of commands and of characters in commands. When a segment reaches one of them, a new segment begins. */
const MAX_CYCLES = 4000000;
const MAX_ENTRIES = 4000;
const MAX_CHARACTERS = 200000;
/** The maximum number of cycles that one report can add to the history. A longer report restarts the history at the current state. */
const MAX_REPORT_CYCLES = 16000000;
/** The maximum number of history segments that are stored. */
const MAX_SEGMENTS = 2;

/** Returns the tab's session storage, or null if the page cannot use it. */
function getTabStore() {
  try {
    return sessionStorage;
  } catch {
    return null;
  }
}

/** @param {Entry[]} entries */
function sumCycles(entries) {
  return entries.reduce((sum, { cycles }) => sum + cycles, 0);
}

/**
 * Returns true if a stored value is a valid history entry.
 * @param {any} entry
 */
function isEntry(entry) {
  return entry && typeof entry.line === "string" && typeof entry.cycles === "number" && typeof entry.resets === "boolean"
    && typeof entry.isStop === "boolean";
}

/**
 * Returns a segment that was read from the storage. Throws an error if it is not a segment of a history.
 * @param {any} storedSegment
 * @returns {StoredSegment}
 */
function parseSegment({ file, total, reset, entries }) {
  if (typeof total !== "number" || typeof reset !== "number" || !entries.every(isEntry)) throw new Error(say.NOT_A_HISTORY);
  return { file: fromBase64(file), total, reset, entries };
}

export class StoredHistory {
  /** @param {TabStore | null} store */
  constructor(store = getTabStore()) {
    this.store = store;
    /** The id of the current session. */
    this.sessionId = "";
    /** @type {StoredSegment[]} */
    this.segments = [];
    /** The number of cycles in the last segment. */
    this.cycles = 0;
    /** The number of characters in the last segment's commands. */
    this.characters = 0;
  }

  /**
   * Discards the history, because another session has been opened.
   * @param {string} sessionId the id of the opened session
   */
  handleSessionOpening(sessionId) {
    this.sessionId = sessionId;
    this.segments = [];
  }

  /**
   * Adds a report's entries to the history. The history restarts at the current state if the report replaces all earlier entries, or if its
   * entries have too many cycles.
   * @param {PastChanges} report
   * @param {{ file: Uint8Array, total: number, reset: number }} currentState the session after the report's entries
   */
  addReport({ isNewPast, entries }, currentState) {
    const cycles = sumCycles(entries);
    const lastSegment = this.segments[this.segments.length - 1];
    if (isNewPast || !lastSegment || cycles > MAX_REPORT_CYCLES) {
      this.segments = [];
      this.addSegment(currentState);
      return;
    }
    lastSegment.entries.push(...entries);
    this.cycles += cycles;
    this.characters += entries.reduce((sum, { line }) => sum + line.length, 0);
    const isFull = this.cycles >= MAX_CYCLES || lastSegment.entries.length >= MAX_ENTRIES || this.characters >= MAX_CHARACTERS;
    if (isFull) this.addSegment(currentState);
  }

  /** @param {{ file: Uint8Array, total: number, reset: number }} currentState */
  addSegment({ file, total, reset }) {
    this.segments = [...this.segments, { file: file.slice(), total, reset, entries: [] }].slice(-MAX_SEGMENTS);
    this.cycles = 0;
    this.characters = 0;
  }

  /** Writes the history to the storage when the user leaves the page. */
  saveOnLeave() {
    const segments = this.segments.map(({ file, ...fields }) => ({ file: toBase64(file), ...fields }));
    this.accessStore((store) => store.setItem(STORAGE_KEY, JSON.stringify({ session: this.sessionId, segments })));
  }

  /** Removes the history from the storage. Returns its segments, or an empty list if it is not the history of the current session. */
  takeStoredSegments() {
    /** @type {StoredSegment[]} */
    let segments = [];
    this.accessStore((store) => {
      const history = JSON.parse(store.getItem(STORAGE_KEY) || "{}");
      store.removeItem(STORAGE_KEY);
      if (history.session === this.sessionId && Array.isArray(history.segments)) segments = history.segments.map(parseSegment);
    });
    return segments;
  }

  /**
   * Puts the history from before a reload, which the bench has restored, in front of the entries since the reload.
   * @param {StoredSegment[]} restoredSegments
   * @param {number} restoredCount the number of restored entries in the last segment
   */
  continueFrom(restoredSegments, restoredCount) {
    const [{ entries }, ...laterSegments] = this.segments;
    const lastSegment = restoredSegments[restoredSegments.length - 1];
    lastSegment.entries.splice(restoredCount, Infinity, ...entries);
    this.segments = [...restoredSegments, ...laterSegments].slice(-MAX_SEGMENTS);
    if (laterSegments.length > 0) return;
    this.cycles = sumCycles(lastSegment.entries);
    this.characters = lastSegment.entries.reduce((sum, { line }) => sum + line.length, 0);
  }

  /** @param {(store: TabStore) => void} action */
  accessStore(action) {
    try {
      if (this.store) action(this.store);
    } catch {
      // If the history cannot be stored, the user can go back only to the last reload.
    }
  }
}
