// The page: creates its components and connects them to the current session. Every value that the page shows comes from an answer of the
// bench.

import { ConfirmDialog } from "./ui/confirm_dialog.js";
import { Face } from "../core/board/face.js";
import { makeCurrentSession, makeRecovery, makeRunController, makeLineServer } from "./compose_core.js";
import { connectSound, makeDrawingController, makeKeyPresser, makeScope, makeSnapshotView } from "./compose_board.js";
import {
  makeBreakpointsController, makeHeatView, makeHistoryView, makeMistakesView, makeSourceValues, makeTravel, makeWatchView,
} from "./compose_debug.js";
import { lampNames } from "../core/board/face_board.js";
import { currentWiredText, describesSameBoard, textsToStore } from "../core/board/wired_board_text.js";
import { readCellDescriptions } from "../core/help/manual.js";
import { Layout } from "./layout.js";
import { LogView } from "./lines/log_view.js";
import { sessionTitle } from "../core/session/session_summary.js";
import { StoredHistory } from "./session/stored_history.js";
import { makeExportView, makeRomFiles, makeSessionsController, makeLinkSharing } from "./compose_session.js";
import {
  makeEditors, makeExploreTab, makeProblemsView, makeSource, makeTestsTab, makeTextsController, showNibbleNames,
} from "./compose_texts.js";
import { CyclesView } from "./time/cycles_view.js";
import { TextAppearance } from "./text/text_appearance.js";
import { ProgressView } from "./ui/progress_view.js";
import * as say from "../words/page.js";

/**
 * @typedef {import("../core/bench/bench_client.js").Bench} Bench
 * @typedef {import("../core/engine/examples.js").Example} Example
 * @typedef {import("./session/locks.js").Locks} Locks
 * @typedef {import("../core/help/manual.js").ManualSection} ManualSection
 * @typedef {import("./ui/notice.js").Notice} Notice
 * @typedef {import("../core/bench/protocol.js").PageState} PageState
 * @typedef {import("./session/store.js").SessionRecord} SessionRecord
 * @typedef {import("./session/store.js").SessionStore} SessionStore
 * @typedef {import("../core/bench/error_messages.js").ErrorMessages} ErrorMessages
 * @typedef {{ bench: Bench, makeBench: () => Bench, store: SessionStore, locks: Locks, errorMessages: ErrorMessages, notice: Notice,
 *   examples: Example[], manual: ManualSection[] }} PageServices the services that the page uses; `makeBench` starts another bench, in a
 *   new worker
 */

export class Page {
  /** @param {PageServices} services */
  constructor(services) {
    const { bench, makeBench, store, errorMessages, notice, manual } = services;
    this.cellWords = readCellDescriptions(manual);
    this.bench = bench;
    this.store = store;
    this.errorMessages = errorMessages;
    this.notice = notice;
    /** True if the computer's keyboard presses the board's keys. */
    this.usesKeyboard = true;
    this.storedHistory = new StoredHistory();
    this.currentSession = makeCurrentSession(this);
    this.recovery = makeRecovery(this);
    this.runController = makeRunController(this);
    this.lineServer = makeLineServer(this);
    this.keyPresser = makeKeyPresser(this);
    this.snapshotView = makeSnapshotView(this);
    this.logView = new LogView(errorMessages);
    this.layout = new Layout(() => this.printContents());
    this.progressView = new ProgressView();
    this.editors = makeEditors(this, manual);
    this.breakpoints = makeBreakpointsController(this);
    this.source = makeSource(this);
    this.sourceValues = makeSourceValues(this);
    this.watchView = makeWatchView(this);
    this.heatView = makeHeatView(this);
    this.cyclesView = new CyclesView(() => this.currentSession.save());
    this.travel = makeTravel(this);
    this.historyView = makeHistoryView(this);
    this.confirmDialog = new ConfirmDialog();
    this.testsTab = makeTestsTab(this, manual);
    this.exploreTab = makeExploreTab(this, manual, makeBench);
    this.appearance = new TextAppearance(this.layout.preferences, this.textEditors.map(({ editor }) => editor.lineEditor));
    this.mistakesView = makeMistakesView(this, makeProblemsView(this));
    this.textsController = makeTextsController(this);
    this.romFiles = makeRomFiles(this);
    this.exportView = makeExportView(this);
    this.sessionsController = makeSessionsController(this, services);
    this.linkSharing = makeLinkSharing(this);
    this.drawingController = makeDrawingController(this);
    this.scope = makeScope(this);
  }

  get boardEditor() {
    return this.editors.board;
  }

  get programEditor() {
    return this.editors.program;
  }

  get textEditors() {
    return [this.boardEditor, this.programEditor, this.testsTab.editor, this.exploreTab.editor];
  }

  get sessions() {
    return this.sessionsController.view;
  }

  /**
   * Returns the listener for the bench worker's frames, errors and termination.
   * @returns {import("../core/bench/bench_client.js").Listener}
   */
  makeBenchListener() {
    return {
      handleFrame: (frame) => this.runController.handleFrame(frame),
      handleFailure: (error) => this.recovery.reportFailure(error),
      handleTermination: () => this.recovery.restart(),
    };
  }

  /** Compares the program's source text with the contents of ROM. Called whenever the text or ROM may have changed. */
  checkSource() {
    return this.source.check().catch((error) => this.recovery.reportFailure(error));
  }

  /**
   * Returns the session's name, board text and source for printing.
   * @returns {import("./print_view.js").PrintContents}
   */
  printContents() {
    return { name: this.currentSession.name, board: this.boardEditor.text, program: this.programEditor.text };
  }

  /**
   * Opens another session: shows its texts and clears everything that belongs to the previous session.
   * @param {SessionRecord} record
   */
  showSession(record) {
    this.storedHistory.handleSessionOpening(record.id);
    this.breakpoints.open(record);
    this.keyPresser.forgetKeys();
    this.scope.discardRecording();
    this.scope.view.open(record.rows);
    this.testsTab.discardResults();
    this.mistakesView.clear();
    this.historyView.resetFields();
    this.sourceValues.forget();
    this.heatView.clear();
    this.watchView.open(record.watched);
    this.textsController.show(record);
    this.testsTab.updateFirstTextOffer();
    this.drawingController.handleSessionOpening();
    this.exploreTab.handleSessionOpening(record.id);
    this.source.forget();
    this.logView.clear();
    this.cyclesView.open(record.cycles);
  }

  /** Checks the tests and the properties of a newly opened session. Called last, because their tabs are usually not in front. */
  checkTestsAndProperties() {
    this.testsTab.refresh();
    this.exploreTab.refresh();
  }

  /**
   * Draws a new board in place of the current one, together with the front panel that the board's text declares.
   * @param {SessionRecord} record
   * @param {string[]} board the lines of the bench's answer to the query `board`
   */
  draw(record, board) {
    const { pendingBoardText } = this.editors;
    const wiredTexts = pendingBoardText === null ? currentWiredText(board, this.boardEditor.text, record.wired)
      : { text: pendingBoardText, board: board.join("\n") };
    record.wired = textsToStore(wiredTexts, record.wired);
    const { snapshotView } = this;
    this.currentSession.adoptTitle(sessionTitle(wiredTexts.text, this.programEditor.text) || (board.length > 1 ? say.MY_BOARD : ""));
    snapshotView.draw(board, wiredTexts.text);
    this.drawingController.handleBoard(board);
    this.historyView.draw(snapshotView.board, lampNames(new Face(wiredTexts.text), snapshotView.board.lamps.length));
    this.editors.checkTexts(board.length === 1);
    this.heatView.updateReporting();
    connectSound(this, wiredTexts.text);
    showNibbleNames(this);
  }

  /**
   * Shows the front panel of an edited board text. If the text describes a board other than the one in use, the panel does not change until
   * the user applies the text.
   * @param {string} boardText
   */
  changeFace(boardText) {
    const { session } = this.currentSession;
    const [wiredTexts] = (session && session.record.wired) || [];
    if (!session || !wiredTexts || !describesSameBoard(boardText, wiredTexts)) return;
    session.record.wired = textsToStore({ ...wiredTexts, text: boardText }, session.record.wired);
    this.snapshotView.changeFace(boardText);
    connectSound(this, boardText);
  }

  /**
   * Shows a snapshot of the session.
   * @param {PageState} state
   * @param {boolean} [isIntermediate] true if time is running and another snapshot follows
   * @param {import("../core/engine/brightness_meter.js").LitShares | null} [litShares] the brightness measurements of the lamps
   */
  show(state, isIntermediate = false, litShares = null) {
    const { snapshot, file, board, total, reset, futureCount, past, waves, printed, waitingChanges } = state;
    const { session } = this.currentSession;
    if (!session) return;
    this.bench.returnBuffer(session.replaceFile(file));
    this.runController.pendingKeys.waitingChanges = waitingChanges;
    this.storedHistory.addReport(past, { file: session.record.file, total, reset });
    this.cyclesView.update({ total, reset }, this.runController.clock.isRunning);
    session.record.cycles = this.cyclesView.cycles.storedCounts;
    this.historyView.updateForwardButton(futureCount);
    if (board) this.draw(session.record, board);
    this.snapshotView.show(snapshot, isIntermediate, litShares);
    if (printed) {
      session.record.printed = printed;
      this.snapshotView.printer.showPrintout(printed);
    }
    this.sourceValues.updateFromSnapshot(total);
    this.heatView.handleSnapshot();
    this.scope.addPart(waves);
  }
}
