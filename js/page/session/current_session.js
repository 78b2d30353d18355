// Manages the current session: replaces and saves the session, and displays its name.

import { field, block } from "../ui/dom.js";
import { describeInterruption } from "../../words/stops.js";
import { ZERO_COUNTS } from "../../core/time/cycles.js";
import { formatUrlFragment } from "./address.js";
import { OpenSession } from "./open_session.js";
import { shortenName } from "../../core/session/names.js";
import * as say from "../../words/session.js";

/**
 * @typedef {import("./locks.js").Release} Release
 * @typedef {import("../../core/engine/file_requests.js").FileRequests} FileRequests
 * @typedef {import("../../core/engine/session_requests.js").SessionRequests} SessionRequests
 * @typedef {import("../../core/bench/bench_client.js").Caller<FileRequests & SessionRequests>} Bench
 * @typedef {import("../../core/bench/run_log.js").RunEntry} RunEntry
 * @typedef {import("./stored_history.js").StoredHistory} StoredHistory
 * @typedef {import("../../core/bench/protocol.js").PageState} PageState
 * @typedef {import("./store.js").SessionRecord} SessionRecord
 * @typedef {import("./store.js").SessionStore} SessionStore
 */

/**
 * The callbacks of CurrentSession.
 * @typedef {object} CurrentSessionCalls
 * @property {(record: SessionRecord) => void} showSession Shows another session: the texts and the settings in its record.
 * @property {(state: PageState) => void} show Shows the current state of the session.
 * @property {() => Promise<void>} checkSource Compares the source with ROM. Resolves when the page shows the program's names.
 * @property {() => void} checkTestsAndProperties Checks the tests and the properties of the session.
 * @property {() => void} run Resumes time in a session that the user left while time was running.
 * @property {(reason: string) => void} showPaused Shows that time is paused, and the reason.
 * @property {() => Promise<void>} pauseTime Pauses time. Resolves when the worker has stopped the run.
 * @property {() => string} describeCounter Returns the program counter with its name and its source line, as text.
 * @property {() => void} handleSessionChange Called when the user changes the session.
 * @property {() => RunEntry[]} takeRuns Removes and returns the log entries of the runs since the last call.
 * @property {(runs: RunEntry[], saveError: string) => void} logRuns Logs runs. `saveError` is the reason why the session could not be
 *   saved, or "" if it was saved.
 * @property {(message: string) => void} showSaveError Shows the reason why the session is not saved; "" hides the reason.
 * @property {(state: "example" | "saved" | "failed") => void} showSaveState Shows in the status line whether the session is saved.
 */

/** The ids of the elements that stay hidden until a session is open. */
const SESSION_ELEMENT_IDS = ["bench", "session-bar", "clock", "tools", "statusbar"];

export class CurrentSession {
  /**
   * @param {Bench} bench
   * @param {SessionStore} store
   * @param {CurrentSessionCalls} calls
   * @param {StoredHistory} storedHistory
   */
  constructor(bench, store, calls, storedHistory) {
    this.bench = bench;
    this.store = store;
    this.calls = calls;
    this.storedHistory = storedHistory;
    /** @type {OpenSession | null} */
    this.session = null;
    /** The time of the last save, in milliseconds. */
    this.lastSaveTime = 0;
    /** True while the page opens a session in which time will resume. Meanwhile, no source line is marked as the next to execute. */
    this.willRun = false;
  }

  /**
   * Replaces the session. If the new session is rejected, the current session stays.
   * @param {SessionRecord} record
   * @param {Release} release
   * @param {string} example the example's name if the session is an unchanged example, otherwise ""
   */
  async replaceSession(record, release, example) {
    const { bench, store, calls } = this;
    await bench.call("settleFile", [record.file]);
    const oldSession = this.session;
    if (oldSession) await this.leaveSession();
    const state = await this.open(record);
    if (oldSession) oldSession.release();
    this.session = new OpenSession(store, record, release, example);
    calls.showSession(record);
    calls.show(state);
    this.showName();
    const { goal, runs } = record;
    this.willRun = runs && !goal;
    await this.showElements();
    await this.save();
    if (this.willRun) calls.run();
    else calls.showPaused(goal ? describeInterruption(goal, runs, calls.describeCounter()) : say.PAUSED);
    this.willRun = false;
    await this.restoreHistory();
    calls.checkTestsAndProperties();
  }

  /**
   * Shows the elements of the page. Before the first session is shown, the elements stay invisible until the page shows the program's
   * names, because the names change the layout.
   */
  async showElements() {
    const isFirstSession = block("bench").hidden;
    document.body.classList.toggle("settling", isFirstSession);
    for (const id of SESSION_ELEMENT_IDS) block(id).hidden = false;
    await this.calls.checkSource();
    document.body.classList.remove("settling");
  }

  /** Restores the history that was stored before a page reload, so that the user can go back to moments before the reload. */
  async restoreHistory() {
    const { bench, storedHistory } = this;
    const segments = storedHistory.takeStoredSegments();
    const restoredCount = segments.length > 0 ? await bench.call("restorePast", [segments]).catch(() => -1) : -1;
    if (restoredCount >= 0) storedHistory.continueFrom(segments, restoredCount);
  }

  /** Stops and saves the session that the user leaves. The record says whether time was running, so that time can resume on return. */
  async leaveSession() {
    await this.calls.pauseTime();
    await this.save();
  }

  /**
   * @param {SessionRecord} record
   * @returns {Promise<PageState>}
   */
  async open(record) {
    try {
      return await this.openInBench(record);
    } catch (error) {
      if (this.session) this.calls.showPaused(say.PAUSED);
      throw error;
    }
  }

  /**
   * @param {SessionRecord} record
   * @returns {Promise<PageState>}
   */
  openInBench({ file, cycles = ZERO_COUNTS, printed }) {
    return this.bench.call("open", [file, cycles.total, cycles.reset, printed || null]);
  }

  get name() {
    return this.session ? this.session.record.name : "";
  }

  showTitle() {
    field("name").value = this.name;
    document.title = say.titleOfPage(this.name);
  }

  /**
   * Shows the session's name in the name field and in the window title. Puts the session's URL into the address bar, or the example's URL
   * if the session is an unchanged example.
   */
  showName() {
    if (!this.session) return;
    const { record, example } = this.session;
    this.showTitle();
    block("hello").hidden = example === "";
    location.replace(example ? formatUrlFragment("example", example) : formatUrlFragment("session", record.id));
  }

  /**
   * Uses the title in the session's texts as the session's name, unless the user has named the session.
   * @param {string} title
   */
  adoptTitle(title) {
    const name = shortenName(title.replace(/\.$/, ""));
    if (!this.session || !this.session.record.isTitled || name === "" || name === this.session.record.name) return;
    this.session.record.name = name;
    this.showTitle();
  }

  /** @param {string} name */
  async rename(name) {
    if (!this.session) return;
    this.session.record.isTitled = false;
    this.session.record.name = name.trim() || "session";
    this.markChanged();
    this.showName();
    await this.save();
  }

  /** Records that the user has changed the session. From then on, the session is saved. */
  markChanged() {
    if (!this.session) return;
    this.calls.handleSessionChange();
    if (!this.session.markChanged()) return;
    this.showName();
    this.save();
  }

  /** Records a change and saves the session. Resolves to the reason why the session could not be saved, or to "". */
  markChangedAndSave() {
    this.markChanged();
    return this.save();
  }

  /**
   * Writes the session to the store, then logs the runs since the last save. Resolves to the reason why the session could not be saved, or
   * to "".
   */
  async save() {
    if (!this.session) return "";
    const { calls } = this;
    this.lastSaveTime = performance.now();
    const runs = calls.takeRuns();
    const saveError = await this.session.save();
    calls.logRuns(runs, saveError);
    calls.showSaveError(saveError && say.notSavedMessage(saveError));
    calls.showSaveState(saveError || !this.store.isPersistent ? "failed" : this.session.isUntouched ? "example" : "saved");
    return saveError;
  }

  /** Saves the session when the user leaves the page. */
  saveNow() {
    if (!this.session) return;
    this.session.saveNow();
    this.storedHistory.saveOnLeave();
  }
}
