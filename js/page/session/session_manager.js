// Opens, creates, copies and saves sessions and files. If a session cannot be opened, the current session stays unchanged.

import { download } from "./download.js";
import { startsRunning } from "../../core/engine/examples.js";
import { createSessionRecord } from "./open_session.js";
import { UnsavedTexts } from "./unsaved_texts.js";
import { readFolderTexts } from "./folder_project.js";
import { readOpenedFile } from "../../core/session/opened_file.js";
import { MAX_PROJECT_BYTES, projectText, readProject, tooLongMessage } from "../../core/session/project_file.js";
import { StoreError, describeStoreError } from "./store.js";
import * as say from "../../words/session.js";

/**
 * @typedef {import("../../core/engine/file_requests.js").FileRequests} FileRequests
 * @typedef {import("../../core/bench/bench_client.js").Caller<FileRequests> & { size: number }} Bench
 * @typedef {import("../../core/engine/examples.js").Example} Example
 * @typedef {import("./open_session.js").OpenSession} OpenSession
 * @typedef {import("../ui/notice.js").NoticeAction} NoticeAction
 * @typedef {import("./locks.js").Locks} Locks
 * @typedef {import("./locks.js").Release} Release
 * @typedef {import("./store.js").SessionRecord} SessionRecord
 * @typedef {import("./store.js").SessionStore} SessionStore
 * @typedef {import("../../core/bench/error_messages.js").ErrorMessages} ErrorMessages
 */

/**
 * The callbacks of SessionManager.
 * @typedef {object} SessionManagerCalls
 * @property {() => OpenSession | null} session Returns the current session, or null if there is none.
 * @property {() => Promise<string>} save Saves the session. Resolves to the reason why it could not be saved, or to "".
 * @property {(message: string, ...actions: NoticeAction[]) => void} showNotice Shows a message, with buttons for actions.
 * @property {(id: string) => void} setSpeed Sets the speed that a project requests. `id` is the speed's id.
 * @property {(record: SessionRecord) => void} offerReturn Reports a session that the user has left for a new session, and offers to
 *   reopen it.
 * @property {(name: string, texts: import("../../core/session/opened_file.js").FileTexts) => Promise<void>} loadTexts Loads the texts of a
 *   file into the editors.
 * @property {(name: string, bytes: Int16Array) => Promise<void>} loadImage Loads the bytes of a file into ROM; -1 leaves a byte unchanged.
 * @property {(record: SessionRecord, release: Release, example: string) => Promise<void>} useSession Makes a session the current session.
 *   `release` releases the session's lock. `example` is the example's name if the session is an unchanged example, otherwise "".
 */


export class SessionManager {
  /**
   * @param {Bench} bench
   * @param {SessionStore} store
   * @param {Locks} locks
   * @param {ErrorMessages} errorMessages
   * @param {SessionManagerCalls} calls
   */
  constructor(bench, store, locks, errorMessages, calls) {
    this.bench = bench;
    this.store = store;
    this.locks = locks;
    this.errorMessages = errorMessages;
    this.calls = calls;
    this.unsavedTexts = new UnsavedTexts();
  }

  /**
   * Resolves to the saved sessions, the most recently changed first. If the store cannot be read, reports the reason and resolves to an
   * empty list.
   */
  async savedSessions() {
    try {
      return (await this.store.getAll()).sort((a, b) => b.changed - a.changed);
    } catch (error) {
      this.calls.showNotice(say.cannotReadSessionsMessage(describeStoreError(error)));
      return [];
    }
  }

  /**
   * Resolves to the stored record of a session, with its unsaved texts. Rejects if the session has been deleted.
   * @param {string} id
   */
  async readRecord(id) {
    const record = await this.store.get(id);
    if (!record) throw new StoreError(say.NO_LONGER_SAVED);
    this.unsavedTexts.restore(record);
    return record;
  }

  /**
   * Shows a message that says why an action was not executed. Returns false.
   * @param {string} message
   * @param {NoticeAction[]} actions buttons for alternative actions
   * @returns {false}
   */
  reportRejection(message, ...actions) {
    this.calls.showNotice(message, ...actions);
    return false;
  }

  /**
   * Opens a saved session. Resolves to true if it was opened. If the session is open in another tab, deleted or damaged, reports the reason
   * and resolves to false.
   * @param {string} id
   */
  async open(id) {
    const release = await this.locks.acquire(id);
    if (!release) return this.reportRejection(say.IN_ANOTHER_TAB, { label: say.OPEN_A_COPY, act: () => this.copy(id) });
    try {
      await this.calls.useSession(await this.readRecord(id), release, "");
      return true;
    } catch (error) {
      release();
      return this.reportRejection(say.notOpenedMessage(this.errorMessages.errorMessage(error)));
    }
  }

  /**
   * Creates a session, acquires its lock and opens it. Resolves to true if the session was created. Otherwise, reports the reason and
   * resolves to false.
   * @param {() => Promise<SessionRecord>} makeRecord
   * @param {string} example the example's name if the session is an unchanged example, otherwise ""
   */
  async openNew(makeRecord, example = "") {
    const previousSession = this.calls.session();
    try {
      const record = await makeRecord();
      await this.calls.useSession(record, (await this.locks.acquire(record.id)) || (() => {}), example);
      if (previousSession && !previousSession.isUntouched) this.calls.offerReturn(previousSession.record);
      return true;
    } catch (error) {
      return this.reportRejection(say.notCreatedMessage(this.errorMessages.errorMessage(error)));
    }
  }

  /**
   * Opens a new session from an example.
   * @param {Example} example
   */
  openExample(example) {
    const makeRecord = () => (example.project === "" ? this.makeExampleRecord(example) : this.makeExampleProjectRecord(example));
    return this.openNew(makeRecord, example.name);
  }

  /** @param {Example} example */
  async makeExampleRecord(example) {
    const { board, program, tests, properties } = example;
    const texts = { boardText: board, programText: program, testText: tests, propertiesText: properties };
    const record = createSessionRecord(example.name, await this.bench.call("createFile", [example]), texts, startsRunning(example));
    return { ...record, isTitled: example.board === "" && example.program === "" };
  }

  /**
   * Resolves to a new record for an example that is a project, with the example's properties.
   * @param {Example} example
   */
  async makeExampleProjectRecord({ project, properties }) {
    return { ...(await this.makeProjectRecord(new TextEncoder().encode(project))), propertiesText: properties };
  }

  /** @param {string} id */
  async copy(id) {
    const currentSession = this.calls.session();
    if (currentSession && currentSession.record.id === id) await this.calls.save();
    return this.openNew(async () => {
      const record = await this.readRecord(id);
      return createSessionRecord(say.nameOfCopy(record.name), record.file, record);
    });
  }

  /**
   * Opens a file. A project or a session file becomes a new session. Texts are loaded into the current session's editors, and an image into
   * its ROM. If the file cannot be opened, reports the reason and resolves to false.
   * @param {File} file
   */
  async openFile(file) {
    try {
      const bytes = new Uint8Array(await file.slice(0, MAX_PROJECT_BYTES + 1).arrayBuffer());
      const contents = readOpenedFile(file.name, bytes);
      if (contents.kind === "texts") await this.calls.loadTexts(file.name, contents.texts);
      else if (contents.kind === "image") await this.calls.loadImage(file.name, contents.bytes);
      else {
        const isProject = contents.kind === "project";
        return await this.openSession(await (isProject ? this.makeProjectRecord(bytes) : this.makeSessionFileRecord(file.name, bytes)));
      }
      return true;
    } catch (error) {
      return this.reportRejection(say.fileNotOpened(file.name, this.errorMessages.errorMessage(error)));
    }
  }

  /**
   * Opens a project folder as a new session. If the folder cannot be opened, reports the reason and resolves to false.
   * @param {() => Promise<import("./folder_files.js").Folder>} read reads the folder's files
   */
  async openFolder(read) {
    let name = say.THE_FOLDER;
    try {
      const folder = await read();
      name = folder.name || name;
      const { texts, speed, message } = await readFolderTexts(folder);
      const wasOpened = await this.openSession(await this.makeExampleRecord(texts));
      if (wasOpened && speed) this.calls.setSpeed(speed);
      if (wasOpened && message) this.calls.showNotice(message);
      return wasOpened;
    } catch (error) {
      return this.reportRejection(say.fileNotOpened(name, this.errorMessages.errorMessage(error)));
    }
  }

  /** @param {SessionRecord} record a record that was read from a file */
  openSession(record) {
    return this.openNew(async () => record);
  }

  /**
   * Resolves to a new record for a project file. The record contains the bytes of the project's session unchanged.
   * @param {Uint8Array} bytes
   */
  async makeProjectRecord(bytes) {
    const project = readProject(bytes, this.bench.size);
    await this.bench.call("settleFile", [project.file]);
    return createSessionRecord(project.name || "session", project.file, project);
  }

  /**
   * Resolves to a new record for a session file. Only the bench decides whether the bytes are a valid session.
   * @param {string} fileName
   * @param {Uint8Array} bytes
   */
  async makeSessionFileRecord(fileName, bytes) {
    // The bench needs only one byte more than the size of a session file to detect a file that is too long.
    const settledBytes = await this.bench.call("settleFile", [bytes.slice(0, this.bench.size + 1)]);
    const texts = await this.bench.call("recoverTexts", [settledBytes]);
    return createSessionRecord(fileName.replace(/\.mcs$/i, ""), settledBytes, texts);
  }

  /** Saves the session with its texts as a project file, unless the file would be too long to open again. */
  save() {
    const session = this.calls.session();
    if (!session) return;
    const lengthError = tooLongMessage(session.record);
    if (lengthError) this.reportRejection(say.noProjectSavedMessage(lengthError));
    else download(session.record.name, ".mcsp", new Blob([projectText(session.record)], { type: "application/octet-stream" }));
  }

  /** Saves only the session file, for the command-line program. */
  saveSession() {
    const session = this.calls.session();
    if (session) download(session.record.name, ".mcs", new Blob([session.record.file], { type: "application/octet-stream" }));
  }
}
