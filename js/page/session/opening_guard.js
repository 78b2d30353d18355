// Detects sessions that make the page hang while they are opened, for example because a text takes too long to process. The page must not
// open such a session automatically at every start. A flag is set before a session is opened. The flag is cleared when the page shows the
// session and still responds.

import { getBrowserStore } from "../ui/preferences.js";

/** @typedef {Pick<Storage, "getItem" | "setItem" | "removeItem">} FlagStore */

const KEY_PREFIX = "fethsaim.opening.";
/** If the page still responds this number of milliseconds after it has opened a session, the session counts as harmless. */
const HARMLESS_AFTER_MS = 1000;
/**
 * The time in milliseconds during which an opening counts as recent. A user who leaves the page within this time has not seen it hang.
 * Another tab may still be opening the session.
 */
const RECENT_OPENING_MS = 2000;
/** The window events that browsers send when the user leaves the page. Every browser sends at least one of them. */
const LEAVE_EVENTS = ["beforeunload", "pagehide"];

export class OpeningGuard {
  /**
   * @param {FlagStore | null} store null if the browser has no storage
   * @param {(action: () => void, time: number) => void} callLater calls a function after a time in milliseconds
   * @param {() => number} currentTime returns the current time in milliseconds
   */
  constructor(store = getBrowserStore(), callLater = (action, time) => { setTimeout(action, time); }, currentTime = () => Date.now()) {
    this.store = store;
    this.callLater = callLater;
    this.currentTime = currentTime;
    /**
     * @type {Map<string, { time: number, isEnded: boolean }>} the openings whose flags this page has set, by session id: the start time,
     *   and whether the opening has ended
     */
    this.pendingOpenings = new Map();
  }

  /**
   * Opens a session. The session's flag is set during the opening and for HARMLESS_AFTER_MS afterwards.
   * @param {string} id
   * @param {() => Promise<void>} open opens the session; the opening has also ended if the promise is rejected
   */
  async runOpening(id, open) {
    const opening = { time: this.currentTime(), isEnded: false };
    this.pendingOpenings.set(id, opening);
    this.accessStore((store) => store.setItem(KEY_PREFIX + id, String(opening.time)));
    try {
      await open();
    } finally {
      opening.isEnded = true;
      // The session may have been opened again in the meantime.
      this.callLater(() => (this.pendingOpenings.get(id) === opening ? this.clearFlag(id) : undefined), HARMLESS_AFTER_MS);
    }
  }

  /**
   * Returns true if the last opening of a session has not ended. Ignores a recent opening, which may still be in progress.
   * @param {string} id
   */
  hasUnfinishedOpening(id) {
    /** @type {string | null} */
    let flag = null;
    this.accessStore((store) => {
      flag = store.getItem(KEY_PREFIX + id);
    });
    return flag !== null && !this.isRecent(Number(flag));
  }

  /** @param {number} time the time at which an opening began, in milliseconds */
  isRecent(time) {
    const age = this.currentTime() - time;
    return age >= 0 && age < RECENT_OPENING_MS;
  }

  /**
   * Clears a session's flag, because its opening has not made the page hang, or because the session was deleted.
   * @param {string} id
   */
  clearFlag(id) {
    this.pendingOpenings.delete(id);
    this.accessStore((store) => store.removeItem(KEY_PREFIX + id));
  }

  /** @param {Pick<Window, "addEventListener">} target the page's window */
  listen(target) {
    // When the user leaves a page, Firefox 153 often does not run functions that have never run before. Therefore, run `handleLeave` once
    // now, with one opening to clear.
    this.pendingOpenings.set("", { time: this.currentTime(), isEnded: false });
    this.handleLeave();
    for (const name of LEAVE_EVENTS) target.addEventListener(name, () => this.handleLeave());
  }

  /** Clears the flags of openings that have ended or are recent, because a page that can still execute this function has not hung. */
  handleLeave() {
    for (const [id, { time, isEnded }] of this.pendingOpenings) if (isEnded || this.isRecent(time)) this.clearFlag(id);
  }

  /** @param {(store: FlagStore) => void} action */
  accessStore(action) {
    try {
      if (this.store) action(this.store);
    } catch {
      // Without local storage, no opening counts as unfinished.
    }
  }
}
