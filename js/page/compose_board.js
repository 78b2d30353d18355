// Creates the views and controllers of the board, and connects them to the page's other components.

import { partAtLine } from "../core/bench/part_lines.js";
import { CancelledError } from "../core/bench/bench_errors.js";
import { findBoardKey } from "../core/board/board_keys.js";
import { Face } from "../core/board/face.js";
import { findBuzzer } from "../core/board/face_board.js";
import { KeyPresser, handlesKey } from "./board/key_presser.js";
import { DrawingController } from "./drawing/drawing_controller.js";
import { insertKeyScan } from "./compose_texts.js";
import { drawnPartLines } from "../core/drawing/drawn_part_lines.js";
import { describeCell } from "../core/help/manual.js";
import { SnapshotView } from "./snapshot_view.js";
import { isDialogOpen } from "./ui/dom.js";
import { Scope } from "./waves/scope.js";
import { listRecordableLines } from "../core/waves/wave_catalog.js";
import { keyLine } from "../core/board/key_place.js";
import * as say from "../words/page.js";

/** @typedef {import("./bench_page.js").Page} Page */

/**
 * @param {Page} page
 * @returns {SnapshotView}
 */
export function makeSnapshotView(page) {
  const { runController } = page;
  return new SnapshotView({
    connectKey: (node, key) => page.keyPresser.listenToButton(node, key),
    isRunning: () => runController.clock.isRunning,
    isFast: () => runController.isFast,
    isWiringShown: () => page.layout.tabs.shownName === "wiring",
    ask: (lines) => page.bench.call("ask", [lines]),
    serveLine: (line) => page.lineServer.serveLines(line),
    describeRefusal: (number) => page.errorMessages.refusalMeaning(number),
    explain: (name) => describeCell(page.cellWords, name),
    showCounterLine: (counter) => page.source.showNextInstruction(counter, runController.isFast || page.currentSession.willRun),
    receiveBreakpoints: (breakpoints) => page.breakpoints.manager.updateFromBench(breakpoints),
    toggleBreakpoint: (address) => page.breakpoints.manager.toggleAddress(address),
    revealAddress: (address) => page.source.reveal(address),
    watchLamps: (face, number) => {
      page.bench.call("watchLamps", [face, number]).catch((error) => page.recovery.reportFailure(error));
    },
    setPrinter: (printer) => {
      page.bench.call("watchPrinter", [printer]).catch((error) => page.recovery.reportFailure(error));
    },
    clear: () => {
      page.currentSession.markChanged();
      page.bench.call("clearPrintout", []).catch((error) => page.recovery.reportFailure(error));
    },
    durationOf: (cycles) => runController.clock.displayDuration(cycles),
    reportFailure: (error) => page.recovery.reportFailure(error),
  });
}

/**
 * @param {Page} page
 * @returns {KeyPresser}
 */
export function makeKeyPresser(page) {
  const { runController } = page;
  return new KeyPresser({
    queuesKeyChanges: () => runController.clock.queuesKeyChanges,
    isDown: (key) => runController.willBeDown(key, page.snapshotView.front.isDown(key)),
    press: (key) => runController.queueKeyChange("press", key),
    release: (key) => runController.queueKeyChange("release", key),
    change: (word, key) => {
      runController.queueKeyChange("forget", key);
      page.lineServer.serveLines(`${keyLine(word, key)}\n`);
    },
    keyForEvent: (event) => {
      if (event.ctrlKey || event.metaKey || event.altKey || !page.usesKeyboard || isDialogOpen()) return undefined;
      return handlesKey(event.target, event.key) ? undefined : findBoardKey(page.snapshotView.front.keys, event.key);
    },
  });
}

/**
 * Connects the sound to the buzzer that a board's text declares.
 * @param {Page} page
 * @param {string} boardText
 */
export function connectSound({ runController, snapshotView }, boardText) {
  runController.sound.setBuzzer(findBuzzer(snapshotView.board, new Face(boardText)));
}

/**
 * Returns the controller of the Wiring tab's picture, which is drawn from the board's text.
 * @param {Page} page
 * @returns {DrawingController}
 */
export function makeDrawingController(page) {
  const insertScan = (/** @type {import("../core/bench/answers.js").Board} */ board) => insertKeyScan(page, board);
  const { bench, boardEditor, currentSession, snapshotView: { wiring } } = page;
  const { editor } = boardEditor;
  const { tabs } = page.layout;
  const drawing = new DrawingController(wiring, {
    text: () => editor.text,
    ask: (lines) => bench.call("ask", [lines]),
    edit: (edits) => editor.edit(edits),
    undo: () => editor.undoOrRedo("undo"),
    redo: () => editor.undoOrRedo("redo"),
    describeRefusal: (number) => page.errorMessages.refusalMeaning(number),
    isInFront: () => tabs.shownName === "wiring",
    bringToFront: () => tabs.choose("wiring"),
    applyBoard: async () => {
      await page.editors.applyBoard();
      return boardEditor.status.text;
    },
    showPartLines: (part) => {
      const lines = drawnPartLines(editor.text).get(part);
      if (!lines) return;
      tabs.choose("board");
      editor.selectLines(lines);
    },
    insertKeyScan: insertScan,
    session: () => currentSession.session,
    saveSession: () => currentSession.markChangedAndSave(),
    reportFailure: (error) => page.recovery.reportFailure(error),
  });
  tabs.onShown("wiring", () => {
    wiring.showLevels();
    drawing.updateFromText();
  });
  editor.onCaretMove = (line) => wiring.highlight(partAtLine(drawnPartLines(editor.text), line));
  return drawing;
}

/**
 * @param {Page} page
 * @returns {Scope}
 */
export function makeScope(page) {
  /** @type {(values: string[]) => { board: string, program: string, values: string[], watched: string[] }} */
  const collectRecordedTexts = (values) => ({ board: page.boardEditor.text, program: page.programEditor.text, values,
    watched: page.breakpoints.manager.watchTexts });
  const scope = new Scope({
    goTo: (address) => page.snapshotView.goTo.show(address),
    storeRows: (rows) => {
      if (!page.currentSession.session) return;
      page.currentSession.session.record.rows = rows;
      page.currentSession.save();
    },
    name: () => page.currentSession.name,
    boardLines: () => listRecordableLines(page.snapshotView.board, page.boardEditor.text),
    showRecording: (isOn) => page.layout.dock.setMark("waves", isOn ? "records" : ""),
    startLive: (setup, values) => awaitOrReport(page, page.bench.call("recordLive", [collectRecordedTexts(values), setup])),
    endLive: () => awaitOrReport(page, page.bench.call("endRecording", [])),
    record: async (cycles, isBefore, values) => {
      // A recording ends or begins at the current state, so time must be paused.
      await page.runController.pause();
      try {
        return await page.progressView.show(say.RECORDING_LINES,
          (signal, progress) => page.bench.call("record", [cycles, isBefore, collectRecordedTexts(values)], { signal, progress }));
      } catch (error) {
        if (error instanceof CancelledError) scope.status.set(say.NOTHING_RECORDED);
        else page.recovery.reportFailure(error);
        return null;
      }
    },
  });
  return scope;
}

/**
 * Resolves to the result of a call. If the call fails, reports the error and resolves to null.
 * @template Result
 * @param {Page} page
 * @param {Promise<Result>} call
 */
async function awaitOrReport(page, call) {
  try {
    return await call;
  } catch (error) {
    page.recovery.reportFailure(error);
    return null;
  }
}
