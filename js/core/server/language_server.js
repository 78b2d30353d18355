// The language server for programs, boards, tests, properties and project files. It stores the open texts, handles requests about these
// texts, and reports their errors after each edit.

import { readBoardTables } from "../text/text_help.js";
import { ErrorMessages } from "../bench/error_messages.js";
import { BoardLanguage } from "./board_language.js";
import { readClientCapabilities } from "./capabilities.js";
import { toDiagnostics, findLengthError } from "./diagnostics.js";
import { getField } from "./framing.js";
import {
  NON_BOARD_FILES, findBoard, findDependencies, findProject, findProjectInFolder, isBoard, isProgram, isProjectFile, isPropertyFile,
  isTestFile,
} from "./text_kinds.js";
import { OpenText } from "./open_text.js";
import { ProgramLanguage } from "./program_language.js";
import { ProjectLanguage } from "./project_language.js";
import { PropertyLanguage } from "./property_language.js";
import { INVALID_PARAMS, ProtocolError, requireRange, requireString } from "./lsp_protocol.js";
import { Requests } from "./requests.js";
import { TestLanguage } from "./test_language.js";
import { TestRuns } from "./test_runs.js";
import { TextBench } from "./text_bench.js";
import * as say from "../../words/server.js";

/**
 * @typedef {import("./capabilities.js").Client} Client
 * @typedef {import("./connection.js").RequestHandler} RequestHandler
 * @typedef {import("./connection.js").Connection} Connection
 * @typedef {import("./diagnostics.js").Diagnostic} Diagnostic
 * @typedef {import("./diagnostics.js").ShownError} ShownError
 * @typedef {import("./language.js").Language} Language
 *
 * The functions that the process provides: `readFile` returns the text of a file, and `pause` yields to other tasks.
 * @typedef {{ readFile: import("./text_kinds.js").ReadText, pause: () => Promise<void> }} Host
 *
 * An open text with its errors and diagnostics. `checkedEditCount` is the value of `openText.editCount` at the last completed check, -1
 * before the first check. `check` resolves when the current check ends.
 * @typedef {{ openText: OpenText, errors: ShownError[], diagnostics: Diagnostic[], checkedEditCount: number,
 *   check: Promise<void> }} CheckedText
 */

export class LanguageServer {
  /**
   * @param {Connection} connection
   * @param {import("../engine/engine_host.js").EngineHost} engine
   * @param {{ refusals: Record<string, string>, manual: import("../help/manual.js").ManualSection[] }} data the bench's error messages, by
   *   number, and the manual
   * @param {Host} host
   */
  constructor(connection, engine, { refusals, manual }, host) {
    this.connection = connection;
    this.host = host;
    /** @type {Map<string, CheckedText>} the open texts, by URI */
    this.texts = new Map();
    const errorMessages = new ErrorMessages(refusals);
    const refusalMessage = (/** @type {number} */ number) => errorMessages.refusalMeaning(number);
    const bench = new TextBench(engine);
    const readText = (/** @type {string} */ uri, /** @type {string} */ folder) => this.readText(uri, folder);
    const dependenciesOf = (/** @type {string} */ uri) => this.findDependencies(uri);
    this.program = new ProgramLanguage(bench, manual, refusalMessage, (uri) => this.findBoardText(uri), host.pause);
    this.board = new BoardLanguage(bench, readBoardTables(manual), refusalMessage);
    this.tests = new TestLanguage(engine, manual, dependenciesOf);
    this.properties = new PropertyLanguage(engine, manual, dependenciesOf, readText);
    this.project = new ProjectLanguage(readText);
    this.testRuns = new TestRuns(engine, refusalMessage, dependenciesOf, host.pause);
    /** @type {Client} the client; it has no capabilities before `initialize` */
    this.client = readClientCapabilities({});
    connection.handlers = { requests: new Requests(this).createHandlers(), notifications: this.createNotificationHandlers() };
  }

  /**
   * Returns the handlers of notifications, by method name.
   * @returns {Record<string, RequestHandler>}
   */
  createNotificationHandlers() {
    return {
      "textDocument/didOpen": (params) => this.didOpen(getField(params, "textDocument")),
      "textDocument/didChange": (params) => this.didChange(params),
      "textDocument/didClose": (params) => this.didClose(params),
      "workspace/didChangeWatchedFiles": () => this.checkDependents(() => true),
    };
  }

  // --- open texts and files

  /**
   * Returns the open text that a request names; throws ProtocolError if the text is not open.
   * @param {any} params
   * @returns {CheckedText}
   */
  getRequestedText(params) {
    const uri = requireString(getField(getField(params, "textDocument"), "uri"), "textDocument.uri");
    const checkedText = this.texts.get(uri);
    if (!checkedText) throw new ProtocolError(INVALID_PARAMS, say.notOpenMessage(uri));
    return checkedText;
  }

  /**
   * Returns the text with a URI: from the editor if the text is open, or else from its file. Returns null if the file cannot be read.
   * @param {string} uri
   * @param {string} folder the folder of the project that names the text, "" for none
   */
  readText(uri, folder) {
    const text = this.texts.get(uri);
    return text ? text.openText.text : this.host.readFile(uri, folder);
  }

  /**
   * Returns the language of a text; null if the language is unknown or the text is too long.
   * @param {OpenText} openText
   * @returns {Language | null}
   */
  findLanguage(openText) {
    if (findLengthError(openText)) return null;
    if (isProjectFile(openText.uri)) return this.project;
    if (isBoard(openText)) return this.board;
    if (isTestFile(openText)) return this.tests;
    if (isPropertyFile(openText)) return this.properties;
    return isProgram(openText) ? this.program : null;
  }

  /**
   * Returns the texts that a test or property file depends on.
   * @param {string} uri
   * @returns {import("./dependent_language.js").DependencyTexts}
   */
  findDependencies(uri) {
    const { folder, board, program, tests } = findDependencies(uri, (fileUri, projectFolder) => this.readText(fileUri, projectFolder));
    const readNamedText = (/** @type {string} */ fileUri) => ({ uri: fileUri, text: this.readText(fileUri, folder) });
    return { board: readNamedText(board), program: readNamedText(program), tests: tests.map(readNamedText) };
  }

  /**
   * Returns the open texts, the texts of their projects, and the texts of projects in the client's open folders.
   * @returns {OpenText[]}
   */
  listTexts() {
    const readText = (/** @type {string} */ uri, /** @type {string} */ folder) => this.readText(uri, folder);
    const textsByUri = new Map([...this.texts].map(([uri, { openText }]) => [uri, openText]));
    const projects = [
      ...this.client.folders.map((uri) => findProjectInFolder(`${uri.replace(/\/$/, "")}/`, readText)),
      ...[...this.texts.keys()].map((uri) => findProject(uri, readText)),
    ];
    for (const project of projects) {
      if (!project) continue;
      for (const uri of [project.program, project.board, ...project.tests, ...project.properties]) {
        const text = textsByUri.has(uri) ? null : readText(uri, project.folder);
        if (text !== null) textsByUri.set(uri, new OpenText(uri, "", text, null));
      }
    }
    return [...textsByUri.values()];
  }

  /**
   * Stores an opened text and checks it.
   * @param {any} document the `textDocument` of the notification
   */
  didOpen(document) {
    const uri = requireString(getField(document, "uri"), "textDocument.uri");
    const text = requireString(getField(document, "text"), "textDocument.text");
    const openText = new OpenText(uri, String(getField(document, "languageId")), text, getField(document, "version"));
    const checkedText = { openText, errors: [], diagnostics: [], checkedEditCount: -1, check: Promise.resolve() };
    this.texts.set(uri, checkedText);
    this.checkWithDependents(checkedText);
  }

  /**
   * Applies the changes of a notification to an open text, and checks the text. Throws ProtocolError, without any change, if the parameters
   * are invalid.
   * @param {any} params
   */
  didChange(params) {
    const text = this.getRequestedText(params);
    const changes = getField(params, "contentChanges");
    if (!Array.isArray(changes)) throw new ProtocolError(INVALID_PARAMS, say.CONTENT_CHANGES_SYNTAX);
    // All changes are validated before the first change is applied.
    const edits = changes.map((change) => {
      const range = getField(change, "range");
      return { range: range ? requireRange(range) : null, text: requireString(getField(change, "text"), say.TEXT_OF_CHANGE) };
    });
    for (const edit of edits) text.openText.edit(edit.range, edit.text);
    text.openText.version = getField(getField(params, "textDocument"), "version");
    this.checkWithDependents(text);
  }

  /**
   * Removes a closed text and its diagnostics. Checks the texts that depend on the closed text.
   * @param {any} params
   */
  didClose(params) {
    const { openText } = this.getRequestedText(params);
    this.texts.delete(openText.uri);
    if (!this.client.pullsDiagnostics) this.connection.notify("textDocument/publishDiagnostics", { uri: openText.uri, diagnostics: [] });
    this.checkDependents((uri) => this.affectsErrorsIn(openText.uri, uri));
  }

  /**
   * Returns the URI of a program's board.
   * @param {string} uri the URI of the program
   */
  findBoard(uri) {
    return findBoard(uri, (fileUri, folder) => this.readText(fileUri, folder));
  }

  /**
   * Returns the board text of a program; null if the board cannot be read.
   * @param {string} program the URI of the program
   */
  findBoardText(program) {
    const { uri, folder } = this.findBoard(program);
    return this.readText(uri, folder);
  }

  // --- errors

  /**
   * Returns whether a changed text affects the errors in another text. The errors in a program depend on its board. The errors in tests and
   * properties depend on the board, the program and other tests. A project file affects all texts.
   * @param {string} uri the URI of the changed text
   * @param {string} otherUri the URI of the other text
   */
  affectsErrorsIn(uri, otherUri) {
    if (isProjectFile(uri)) return true;
    const text = this.texts.get(otherUri);
    if (!text || uri === otherUri) return false;
    // A program depends only on its board. If the changed text cannot be a board, the search for the program's board is unnecessary.
    const dependsOnProgram = isTestFile(text.openText) || isPropertyFile(text.openText);
    if (!dependsOnProgram) return !NON_BOARD_FILES.test(uri) && this.findBoard(otherUri).uri === uri;
    const { board, program, tests } = findDependencies(otherUri, (fileUri, folder) => this.readText(fileUri, folder));
    return [board, program, ...tests].includes(uri);
  }

  /**
   * Checks a new or edited text, and the texts that depend on it.
   * @param {CheckedText} text
   */
  checkWithDependents(text) {
    text.check = this.checkText(text);
    const { uri } = text.openText;
    this.checkDependents((otherUri) => this.affectsErrorsIn(uri, otherUri));
  }

  /**
   * Rechecks the open texts that depend on a changed text.
   * @param {(uri: string) => boolean} isDependent returns whether the text at a URI depends on the changed text
   */
  checkDependents(isDependent) {
    const dependents = [...this.texts.values()].filter(({ openText }) => !isBoard(openText) && isDependent(openText.uri));
    for (const text of dependents) {
      text.openText.editCount += 1;
      text.check = this.checkText(text);
    }
    if (dependents.length > 0 && this.client.refreshesDiagnostics) this.connection.ask("workspace/diagnostic/refresh");
  }

  /**
   * Waits until all edits of a text have been checked, including edits that arrive during the wait. Also ends if the text is closed.
   * @param {CheckedText} text
   */
  async waitForCheck(text) {
    while (text.checkedEditCount !== text.openText.editCount && this.texts.get(text.openText.uri) === text) await text.check;
  }

  /**
   * Checks a text and publishes its diagnostics, unless it is edited or closed during the check.
   * @param {CheckedText} text
   */
  async checkText(text) {
    const { openText } = text;
    const { editCount, uri } = openText;
    const isWanted = () => openText.editCount === editCount && this.texts.get(uri) === text;
    // During the pause, more edits can arrive. Then only the check after the last edit continues.
    await this.host.pause();
    if (!isWanted()) return;
    try {
      const result = await this.findErrors(openText, isWanted);
      if (!result || !isWanted()) return;
      const { errors, isComplete } = result;
      Object.assign(text, { errors, diagnostics: toDiagnostics(errors, isComplete), checkedEditCount: editCount });
      this.publish(text);
      // The program is assembled now, so that the first hover is fast.
      if (errors.length === 0 && this.findLanguage(openText) === this.program) this.program.assembleProgram(openText);
    } catch (error) {
      Object.assign(text, { errors: [], diagnostics: [], checkedEditCount: editCount });
      this.connection.logMessage(say.cannotCheckMessage(uri, error instanceof Error ? error.message : String(error)));
    }
  }

  /**
   * Sends the diagnostics of a text, unless the client requests diagnostics itself.
   * @param {CheckedText} text
   */
  publish({ openText: { uri, version }, diagnostics }) {
    if (!this.client.pullsDiagnostics) this.connection.notify("textDocument/publishDiagnostics", { uri, version, diagnostics });
  }

  /**
   * Finds the errors in a text. Resolves to undefined if `isWanted` returns false during the check.
   * @param {OpenText} openText
   * @param {() => boolean} isWanted returns false if the result is no longer needed
   */
  async findErrors(openText, isWanted) {
    const tooLongError = findLengthError(openText);
    const isKnown = isProgram(openText) || isBoard(openText) || isTestFile(openText) || isPropertyFile(openText);
    if (tooLongError) return { errors: isKnown ? [tooLongError] : [], isComplete: true };
    const language = this.findLanguage(openText);
    return language ? language.findErrors(openText, isWanted) : { errors: [], isComplete: true };
  }

  // --- tests

  /**
   * Runs a test and shows the result. If the test fails, adds a diagnostic to the text. The diagnostic remains until the next check.
   * Resolves to null, the result of the request.
   * @param {string} uri
   * @param {string} name
   * @param {import("./connection.js").PendingRequest} pending
   */
  async runTest(uri, name, pending) {
    const text = this.getRequestedText({ textDocument: { uri } });
    const { editCount } = text.openText;
    const { message, hasPassed, failure } = await this.testRuns.run(text.openText, name, pending);
    this.connection.show(message, !hasPassed);
    if (failure && text.openText.editCount === editCount && failure.uri === uri) {
      text.diagnostics = [...text.diagnostics, ...toDiagnostics([failure.error], true)];
      this.publish(text);
      if (this.client.refreshesDiagnostics) this.connection.ask("workspace/diagnostic/refresh");
    }
    return null;
  }
}
