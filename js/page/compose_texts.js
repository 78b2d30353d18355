// Creates the text editors, the tabs for tests and properties, and the list of problems. Connects them to the page's other components.

import { formatErrorCount } from "../core/bench/error_messages.js";
import { ExploreTab } from "./explore/explore_tab.js";
import { Explorer } from "../core/explore/explorer.js";
import { Prover } from "../core/prove/prover.js";
import { createKeyScanSource, createRoutineInsertion } from "../core/drawing/scan_routine.js";
import { nibbleNames } from "../core/machine/ram_names.js";
import { SourceSync } from "../core/machine/source_sync.js";
import { sessionTitle } from "../core/session/session_summary.js";
import { createSessionRecord } from "./session/open_session.js";
import { TextsController } from "./session/texts_controller.js";
import { TestsTab } from "./testing/tests_tab.js";
import { Editors } from "./text/editors.js";
import { ProblemsView } from "./text/problems_view.js";
import * as say from "../words/page.js";

/**
 * @typedef {import("../core/help/manual.js").ManualSection} ManualSection
 * @typedef {import("./bench_page.js").Page} Page
 */

/**
 * @param {Page} page
 * @param {ManualSection[]} manual
 */
export function makeEditors(page, manual) {
  const { runController } = page;
  return new Editors(page.bench, page.errorMessages, manual, {
    handleEdits: (edits) => {
      page.breakpoints.manager.applyTextEdits(edits);
      page.textsController.handleEdit();
      page.drawingController.handleEdit();
    },
    handleAssembly: (wasReset) => page.breakpoints.handleAssembly(wasReset),
    serveLines: (lines) => page.lineServer.serveLines(lines),
    pauseTime: () => runController.pause(),
    resumeTime: () => runController.run(),
    counter: () => page.snapshotView.counter,
    toggleBreakpoint: (line) => page.breakpoints.toggleBreakpointAt(line).catch((error) => page.recovery.reportFailure(error)),
    editBreakpoint: (line, fieldName) => (
      page.breakpoints.editBreakpointAt(line, fieldName).catch((error) => page.recovery.reportFailure(error))),
    openMarginMenu: (line, point) => page.breakpoints.openMenu(line, point),
    describeName: (name) => page.source.meaningOf(name),
    valuesAt: (text, index) => page.sourceValues.valueAt(text, index),
    makeEditable: (cell, { place, name }) => page.snapshotView.editor.makeEditable(cell, { place, name, digits: 1 }),
    replaceBoard: (text, message) => page.textsController.replace("board", text, message),
    showErrorCount: (name, count) => page.layout.tabs.setMark(name, count > 0 ? formatErrorCount(count) : ""),
    reportFailure: (error) => page.recovery.reportFailure(error),
  });
}

/**
 * @param {Page} page
 * @returns {ProblemsView}
 */
export function makeProblemsView(page) {
  /** @type {Record<string, import("./text/text_editor_view.js").TextEditorView>} */
  const editors = { program: page.programEditor, board: page.boardEditor, tests: page.testsTab.editor, properties: page.exploreTab.editor };
  const problemsView = new ProblemsView({
    goTo: (name, error) => {
      page.layout.showText(name);
      editors[name].goToError(error);
    },
    showCount: (count) => page.layout.dock.setMark("problems", count > 0 ? String(count) : ""),
  });
  for (const [name, editor] of Object.entries(editors)) editor.onErrorsChange = (errors) => problemsView.setErrors(name, errors);
  return problemsView;
}

/**
 * Shows the names of nibbles in the RAM view. The names come from the watch list and from the source.
 * @param {Page} page
 */
export function showNibbleNames({ snapshotView, watchView, source }) {
  snapshotView.ram.showNames(nibbleNames(snapshotView.board, watchView.expressions, source.map));
}

/**
 * @param {Page} page
 * @returns {SourceSync}
 */
export function makeSource(page) {
  const source = new SourceSync({
    text: () => page.programEditor.benchText,
    check: (text) => page.bench.call("checkProgram", [text]),
    onChange: (map, reason) => {
      page.snapshotView.showLabels(map, reason);
      page.layout.status.showRomStatus(map !== null, reason);
      showNibbleNames(page);
      page.breakpoints.manager.setSourceMap(map, reason);
    },
    describeRefusal: (number) => page.errorMessages.refusalMeaning(number),
  });
  source.editor = page.programEditor;
  return source;
}

/**
 * @param {Page} page
 * @returns {TextsController}
 */
export function makeTextsController(page) {
  const { currentSession } = page;
  const { boardEditor, programEditor, testsTab, exploreTab, confirmDialog, notice } = page;
  return new TextsController(boardEditor, programEditor, testsTab.editor, exploreTab.editor, confirmDialog, notice, {
    session: () => currentSession.session,
    markChanged: () => currentSession.markChanged(),
    save: () => currentSession.save(),
    handleEdit: () => page.exploreTab.proofs.handleEdit(),
    updateNames: (boardText) => {
      page.changeFace(boardText);
      currentSession.adoptTitle(sessionTitle(boardText, page.programEditor.text));
      page.checkSource();
    },
    disassembleRom: () => page.bench.call("disassembleRom", []),
    isProbablyNotProgram: (text) => page.editors.isProbablyNotProgram(text),
    handleLoadedTexts: (shownName, lines) => {
      page.layout.tabs.choose(shownName);
      page.sessionsController.offeredLines.offer(lines);
    },
    reportFailure: (error) => page.recovery.reportFailure(error),
  });
}

/**
 * Inserts a key scan routine for a board into the source and shows the routine. The insertion is one edit, so one undo removes it.
 * @param {Page} page
 * @param {import("../core/bench/answers.js").Board} board
 */
export function insertKeyScan({ layout, programEditor }, board) {
  const { text, editor } = programEditor;
  const code = createKeyScanSource(board, text);
  const { edit, first, isEnd } = createRoutineInsertion(text, editor.caretLine, code);
  editor.edit([edit]);
  layout.showText("program");
  editor.selectLines({ from: first, to: first + code.trimEnd().split("\n").length - 1 });
  programEditor.showMessage(isEnd ? say.KEY_SCAN_INSERTED : say.keyScanAt(first));
}

/**
 * @param {Page} page
 * @param {ManualSection[]} manual
 * @returns {TestsTab}
 */
export function makeTestsTab(page, manual) {
  const { bench, runController, errorMessages } = page;
  const tab = new TestsTab(manual, {
    texts: () => ({ boardText: page.boardEditor.text, programText: page.programEditor.text }),
    labels: () => (page.source.map ? [...page.source.map.labels.values()].flat() : []),
    findErrors: (texts) => bench.call("findTestErrors", [texts]),
    sample: (texts) => bench.call("createSampleTest", [texts]),
    run: async (texts) => {
      // The worker serves one call at a time, so time cannot run during the tests. Time is paused first, so that the user sees this.
      await runController.pause();
      return page.progressView.show(say.RUNNING_TESTS, (signal, progress) => bench.call("runTests", [texts], { signal, progress }));
    },
    describeRefusal: (number) => errorMessages.refusalMeaning(number),
    showCounts: (report, programText) => {
      if (report && report.coverage && programText === page.programEditor.text) page.programEditor.counts.show(report.coverage.lines);
      else page.programEditor.counts.clear();
    },
    goTo: (address) => page.snapshotView.goTo.show(address),
    open: (name, file, texts) => page.sessionsController.manager.openNew(async () => createSessionRecord(name, file, texts)),
    showMark: (label, isSuccess) => page.layout.tabs.setMark("tests", label, isSuccess),
    handleEdit: () => page.textsController.handleEdit(),
    reportFailure: (error) => page.recovery.reportFailure(error),
  });
  page.layout.tabs.onShown("tests", () => tab.refresh());
  return tab;
}

/**
 * Adds a test to the text in the Tests tab. Returns a message for the user.
 * @param {Page} page
 * @param {string} test
 */
function addTest({ testsTab, textsController }, test) {
  const { text } = testsTab.editor;
  if (text.includes(test.trimEnd())) return say.TEST_ALREADY_THERE;
  textsController.replace("tests", text.trim() === "" ? test : `${text.trimEnd()}\n\n${test}`, say.TEST_ADDED);
  return say.TEST_AT_END;
}

/**
 * Opens a new session with `texts` and executes lines in it, so that the user can step back from the final state.
 * @param {Page} page
 * @param {{ name: string, lines: string, message: string }} scenario the session's name, the lines, and the message to show afterwards
 * @param {import("../core/explore/sliced_search.js").ExploredTexts} texts
 */
async function openWithLines(page, { name, lines, message }, texts) {
  const { boardText, programText } = texts;
  const makeRecord = async () => {
    const example = { name, title: "", board: boardText, program: programText, tests: "", properties: "", lines: "", project: "" };
    return createSessionRecord(name, await page.bench.call("createFile", [example]), { ...texts, testText: page.testsTab.editor.text });
  };
  const { sessionsController } = page;
  const previousSession = page.currentSession.session;
  if (!(await sessionsController.manager.openNew(makeRecord))) return;
  await page.lineServer.serveLines(lines);
  // `serveLines` changes the new session, which hides the notice about the previous session. Show that notice again.
  if (previousSession && !previousSession.isUntouched) sessionsController.offerReturn(previousSession.record);
  page.layout.showText("program");
  page.runController.showMessage(message);
}

/**
 * @param {Page} page
 * @param {ManualSection[]} manual
 * @param {() => import("../core/bench/bench_client.js").Bench} makeBench
 * @returns {ExploreTab}
 */
export function makeExploreTab(page, manual, makeBench) {
  const { bench, errorMessages } = page;
  const [explorer, prover] = [new Explorer(makeBench), new Prover(makeBench)];
  const tab = new ExploreTab(manual, {
    texts: () => ({ boardText: page.boardEditor.text, programText: page.programEditor.text, testText: page.testsTab.editor.text }),
    labels: () => (page.source.map ? [...page.source.map.labels.values()].flat() : []),
    findErrors: (texts) => bench.call("findPropertyErrors", [texts]),
    explore: (texts, request, signal, showProgress) => explorer.explore(texts, request, signal, showProgress),
    describeRefusal: (number) => errorMessages.refusalMeaning(number),
    goToSource: (line) => {
      page.layout.tabs.choose("program");
      page.programEditor.editor.selectLines({ from: line, to: line });
    },
    open: (name, file, texts) => {
      const testText = page.testsTab.editor.text;
      page.sessionsController.manager.openNew(async () => createSessionRecord(name, file, { ...texts, testText }));
    },
    prove: prover.prove.bind(prover),
    openWithLines: (name, lines, texts, message) => openWithLines(page, { name, lines, message }, texts),
    addTest: (test) => addTest(page, test),
    showMark: (label, isSuccess) => page.layout.tabs.setMark("properties", label, isSuccess),
    handleEdit: () => page.textsController.handleEdit(),
    reportFailure: (error) => page.recovery.reportFailure(error),
  });
  page.layout.tabs.onShown("properties", () => tab.refresh());
  return tab;
}
