// Controls the sessions of the page: opens the first session, handles the sessions dialog, and handles changes of the page's URL.

import { readUrlFragment } from "./address.js";
import { Trash, formatNames } from "./trash.js";
import { shortenName } from "../../core/session/names.js";
import { OpeningGuard } from "./opening_guard.js";
import { SessionManager } from "./session_manager.js";
import { TOUR_EXAMPLE } from "../../core/help/tour.js";
import { OfferedLines } from "./offered_lines.js";
import { Persistence } from "./persistence.js";
import { SessionsView } from "./sessions_view.js";
import * as say from "../../words/session.js";

/**
 * @typedef {import("../../core/engine/examples.js").Example} Example
 * @typedef {import("./open_session.js").OpenSession} OpenSession
 * @typedef {import("./locks.js").Release} Release
 * @typedef {import("./store.js").SessionRecord} SessionRecord
 * @typedef {{ bench: import("../../core/bench/bench_client.js").Bench, store: import("./store.js").SessionStore,
 *   locks: import("./locks.js").Locks, errorMessages: import("../../core/bench/error_messages.js").ErrorMessages,
 *   notice: import("../ui/notice.js").Notice, examples: Example[] }} SessionServices
 */

/**
 * The callbacks of SessionsController.
 * @typedef {object} SessionsControllerCalls
 * @property {() => OpenSession | null} session Returns the current session, or null if there is none.
 * @property {() => Promise<string>} save Saves the session. Resolves to the reason why it could not be saved, or to "".
 * @property {(name: string) => void} rename Renames the current session.
 * @property {(id: string) => void} setSpeed Sets the speed that a project requests. `id` is the speed's id.
 * @property {(name: string, texts: import("../../core/session/opened_file.js").FileTexts) => Promise<void>} loadTexts Loads the texts of a
 *   file into the editors.
 * @property {(name: string, bytes: Int16Array) => Promise<void>} loadImage Loads the bytes of a file into ROM; -1 leaves a byte unchanged.
 * @property {(record: SessionRecord, release: Release, example: string) => Promise<void>} useSession Makes a session the current session.
 *   `release` releases the session's lock. `example` is the example's name if the session is an unchanged example, otherwise "".
 * @property {() => void} showLines Brings the console to the front, for an example that consists only of lines.
 * @property {(text: string) => Promise<void>} openLink Offers to open the texts in a link. `text` is the part of the URL after `#link=`.
 */

export class SessionsController {
  /**
   * @param {SessionServices} services
   * @param {SessionsControllerCalls} calls
   */
  constructor({ bench, store, locks, errorMessages, notice, examples }, calls) {
    this.calls = calls;
    this.store = store;
    this.locks = locks;
    this.notice = notice;
    this.examples = examples;
    /** @type {(example: Example) => void} shows the story of an example */
    this.showStory = () => {};
    /** Called after another session has been opened. */
    this.onSessionOpened = () => {};
    this.persistence = new Persistence();
    this.openingGuard = new OpeningGuard();
    this.openingGuard.listen(window);
    this.offeredLines = new OfferedLines(notice);
    /** @type {(message: string, ...actions: import("../ui/notice.js").NoticeAction[]) => void} */
    const showNotice = (message, ...actions) => notice.show(message, "session", ...actions);
    this.manager = new SessionManager(bench, store, locks, errorMessages, {
      ...calls,
      showNotice,
      offerReturn: (record) => this.offerReturn(record),
      useSession: async (record, release, example) => {
        await this.openingGuard.runOpening(record.id, () => calls.useSession(record, release, example));
        notice.hide("left");
        this.onSessionOpened();
        this.offeredLines.offer("");
      },
    });
    this.trash = new Trash(store, locks, showNotice);
    this.view = this.makeView();
  }

  makeView() {
    const { manager, trash, calls } = this;
    return new SessionsView(this.examples, this.notice, {
      savedSessions: () => manager.savedSessions(),
      isCurrent: (id) => this.isCurrent(id),
      open: (id) => this.open(id),
      copy: (id) => manager.copy(id),
      remove: (records) => this.remove(records),
      deletedSessions: () => trash.deletedRecords,
      restoreSessions: (records) => trash.restoreSessions(records),
      openExample: (example) => this.openExample(example),
      openStory: async (example) => {
        const wasOpened = await this.openExample(example);
        if (wasOpened) this.showStory(example);
        return wasOpened;
      },
      openFile: (file) => manager.openFile(file),
      openFolder: (read) => manager.openFolder(read),
      rename: (name) => calls.rename(name),
      describeStorage: () => (
        this.store.isPersistent
          ? say.SAVED_IN_BROWSER_ONLY + (this.persistence.isGranted ? say.STORAGE_IS_PERSISTENT : "")
          : say.NOT_SAVED_ANYWHERE),
    });
  }

  /** @param {string} id */
  isCurrent(id) {
    const session = this.calls.session();
    return session !== null && session.record.id === id;
  }

  /**
   * Reports that the user has left a session for a new session. The notice has a button to return, because the change may have been an
   * accident.
   * @param {SessionRecord} record
   */
  offerReturn({ id, name }) {
    this.notice.show(say.leftSessionMessage(name, this.store.isPersistent), "left", { label: say.REOPEN, act: () => this.open(id) });
  }

  /**
   * Handles a change of the session by the user. From now on, the user has data to lose, and no longer needs the offer to return to the
   * previous session.
   */
  handleSessionChange() {
    this.notice.hide("left");
    if (this.store.isPersistent) this.persistence.request();
  }

  /** @param {string} id */
  open(id) {
    return this.manager.open(id);
  }

  /**
   * Opens a new session from an example. The example's lines appear in the console's input. Resolves to true if the session was created.
   * @param {Example} example
   */
  async openExample(example) {
    const wasOpened = await this.manager.openExample(example);
    if (!wasOpened) return false;
    this.offeredLines.offer(example.lines);
    if (example.lines !== "" && example.board === "") this.calls.showLines();
    return true;
  }

  /**
   * Opens a new session from an example. Resolves to true if the session was created. Shows a notice if there is no such example.
   * @param {string} name the name of an example
   */
  async openExampleByName(name) {
    const example = [...this.examples, TOUR_EXAMPLE].find((candidate) => candidate.name === name);
    if (example) return this.openExample(example);
    this.notice.show(say.noSuchExampleMessage(shortenName(name)), "session");
    return false;
  }

  /**
   * Deletes sessions and shows a notice that offers undo.
   * @param {SessionRecord[]} records
   */
  async remove(records) {
    const deletedRecords = await this.trash.deleteSessions(records);
    if (deletedRecords.length === 0) return;
    for (const { id } of deletedRecords) this.openingGuard.clearFlag(id);
    this.notice.show(say.sessionsDeleted(formatNames(deletedRecords)), "undo",
      { label: say.UNDO, act: () => this.restoreSessions(deletedRecords) });
  }

  /** @param {SessionRecord[]} records */
  async restoreSessions(records) {
    await this.trash.restoreSessions(records);
    if (this.view.isOpen) await this.view.draw();
  }

  /**
   * Opens the first session of the page: the session or the example that the URL names, or the example whose story the URL requests. If the
   * URL names no session or example, or if it cannot be opened, opens the last used session that can be opened, or the first example. Skips
   * sessions that may make the page hang. Then opens the link in the URL, if there is one.
   * @param {string} story the name of the example whose story is requested, or "" if the URL requests none
   */
  async openFirst(story) {
    const { hash } = location;
    const fragment = readUrlFragment(hash);
    const isStory = fragment.kind === "" && this.examples.some((example) => example.name === story && example.story);
    const { kind, value } = isStory ? { kind: "example", value: story } : fragment;
    const isQuiet = kind === "" || kind === "link" || (kind === "session" && this.openingGuard.hasUnfinishedOpening(value));
    if (isQuiet || !(await this.openFromFragment(kind, value))) await this.openLast(isQuiet);
    if (kind === "link") await this.calls.openLink(value);
    if (kind === "") this.reportUnknownFragment(hash);
  }

  /** @param {string} hash the fragment of a URL that names no session, example or link */
  reportUnknownFragment(hash) {
    if (hash.length > 1) this.notice.show(say.addressNamesNothing(shortenName(hash)), "session");
  }

  /**
   * @param {string} kind
   * @param {string} value
   */
  async openFromFragment(kind, value) {
    if (kind === "session") return this.open(value);
    return kind === "example" ? this.openExampleByName(value) : false;
  }

  /** @param {boolean} isQuiet true to skip, without a notice, sessions that are open in other tabs */
  async openLast(isQuiet) {
    const records = await this.manager.savedSessions();
    const unfinishedRecords = records.filter(({ id }) => this.openingGuard.hasUnfinishedOpening(id));
    for (const record of unfinishedRecords) await this.reportUnfinishedOpening(record);
    for (const record of records.filter((candidate) => !unfinishedRecords.includes(candidate))) {
      if (await this.open(record.id)) return;
      if (isQuiet) this.notice.hide("session");
    }
    await this.openExample(this.examples[0]);
  }

  /**
   * Reports a session that may have made the page hang when it was last opened. Such a session is not opened automatically. Reports nothing
   * if another tab holds the session's lock.
   * @param {SessionRecord} record
   */
  async reportUnfinishedOpening(record) {
    const release = await this.locks.acquire(record.id);
    if (!release) return;
    release();
    const message = say.notOpenedAutomaticallyMessage(shortenName(record.name));
    const openAction = { label: say.OPEN_IT, act: () => this.open(record.id) };
    const deleteAction = { label: say.DELETE_IT, act: () => this.remove([record]) };
    this.notice.show(message, "unopened", openAction, deleteAction);
  }

  /** Opens the session, example or link that the changed URL names, unless it is already open. */
  async openUrlTarget() {
    const { kind, value } = readUrlFragment(location.hash);
    const session = this.calls.session();
    if (!session) return;
    if (kind === "") this.reportUnknownFragment(location.hash);
    else if (kind === "link") await this.calls.openLink(value);
    else if (kind === "session" && !this.isCurrent(value)) await this.open(value);
    else if (kind === "example" && session.example !== value) await this.openExampleByName(value);
  }
}
