// Shows the tests of the workspace in the editor's test view. Finds tests in test files, runs tests with `mcs4 test`, and debugs a test with
// `mcs4 dap`.
"use strict";
const { readFileSync } = require("node:fs");
const { basename } = require("node:path");
const { belongsToProject, testArguments } = require("./bench_files.js");
const { parseResults } = require("./tap.js");

const TEST_FILE_PATTERN = "**/*.test";
const TEST_HEADING = /^([ \t]*test[ \t]+)(\S.*?)[ \t]*$/;

/**
 * Returns the tests in the text of a test file, with their locations.
 * @param {string} text
 */
function findTests(text) {
  return text.split(/\r?\n/).flatMap((line, index) => {
    const [, before, name] = TEST_HEADING.exec(line) || [];
    return name ? [{ name, line: index, from: before.length, to: before.length + name.length }] : [];
  });
}

class TestExplorer {
  /**
   * @param vscode the editor's API module
   * @param {import("./bench_command.js").BenchCommand} bench
   */
  constructor(vscode, bench) {
    this.vscode = vscode;
    this.bench = bench;
  }

  register() {
    const { vscode } = this;
    const { workspace, tests, TestRunProfileKind } = vscode;
    this.controller = tests.createTestController("mcs4", "MCS-4 tests");
    this.controller.createRunProfile("Run", TestRunProfileKind.Run, (request, token) => this.run(request, token), true);
    this.controller.createRunProfile("Debug", TestRunProfileKind.Debug, (request) => this.debug(request), true);
    this.controller.resolveHandler = (item) => (item ? this.readTestFile(item.uri) : this.findTestFiles());
    this.controller.refreshHandler = () => this.findTestFiles();
    const watcher = workspace.createFileSystemWatcher(TEST_FILE_PATTERN);
    const showDocument = ({ uri, getText }) => {
      if (uri.scheme === "file" && uri.fsPath.endsWith(".test")) this.showTests(uri, getText());
    };
    const showOpenDocument = (document) => showDocument({ uri: document.uri, getText: () => document.getText() });
    for (const document of workspace.textDocuments) showOpenDocument(document);
    return [
      this.controller, watcher, watcher.onDidCreate((uri) => this.readTestFile(uri)), watcher.onDidChange((uri) => this.readTestFile(uri)),
      watcher.onDidDelete((uri) => this.controller.items.delete(uri.toString())),
      workspace.onDidOpenTextDocument(showOpenDocument), workspace.onDidChangeTextDocument(({ document }) => showOpenDocument(document)),
    ];
  }

  // --- finding tests

  async findTestFiles() {
    const files = await this.vscode.workspace.findFiles(TEST_FILE_PATTERN, "**/node_modules/**");
    for (const uri of files) this.readTestFile(uri);
  }

  /** Reads a test file and shows its tests. Removes the tests of a file that cannot be read. */
  readTestFile(uri) {
    try {
      this.showTests(uri, readFileSync(uri.fsPath, "utf8"));
    } catch {
      this.controller.items.delete(uri.toString());
    }
  }

  /** Shows the tests of a file if the file belongs to a project of the bench. (Other software also uses .test files.) */
  showTests(uri, text) {
    if (!belongsToProject(uri.fsPath)) return;
    const { controller, vscode } = this;
    const tests = findTests(text);
    const file = controller.items.get(uri.toString()) || controller.createTestItem(uri.toString(), basename(uri.fsPath), uri);
    file.children.replace(tests.map(({ name, line, from, to }) => {
      const item = controller.createTestItem(`${uri}#${name}`, name, uri);
      item.range = new vscode.Range(line, from, line, to);
      return item;
    }));
    controller.items.add(file);
  }

  // --- runs

  /** Returns the tests that a request selects: a map from the item of each test file to the items of its selected tests. */
  selectedTests({ include, exclude = [] }) {
    const testsByFile = new Map();
    const add = (file, tests) => {
      const includedTests = tests.filter((test) => !exclude.includes(test) && !exclude.includes(file));
      testsByFile.set(file, [...(testsByFile.get(file) || []), ...includedTests]);
    };
    const childrenOf = (item) => {
      const children = [];
      item.children.forEach((child) => children.push(child));
      return children;
    };
    const fileItems = [];
    this.controller.items.forEach((item) => fileItems.push(item));
    for (const item of include || fileItems) {
      if (item.parent) add(item.parent, [item]);
      else add(item, childrenOf(item));
    }
    return testsByFile;
  }

  async run(request, token) {
    const run = this.controller.createTestRun(request);
    for (const [file, tests] of this.selectedTests(request)) {
      if (token.isCancellationRequested) break;
      await this.runTestFile(run, file, tests, token);
    }
    run.end();
  }

  /** Runs a test file, and reports the results of the selected tests. */
  async runTestFile(run, file, tests, token) {
    await this.vscode.workspace.saveAll(false);
    for (const test of tests) run.started(test);
    const { output, errors } = await this.bench.run(testArguments(file.uri.fsPath), token);
    run.appendOutput((output + errors).replace(/\r?\n/g, "\r\n"));
    const names = [];
    file.children.forEach((child) => names.push(child.label));
    // The output starts with the results of earlier test files of the project, so the last results belong to this file.
    const results = parseResults(output).slice(-names.length);
    for (const test of tests) {
      const result = results[names.indexOf(test.label)];
      if (!result || result.name !== test.label) run.errored(test, new this.vscode.TestMessage(errors.trim() || "The test was not run."));
      else if (result.hasPassed) run.passed(test);
      else run.failed(test, this.createMessage(result));
    }
  }

  createMessage({ message, location, details }) {
    const { vscode } = this;
    const testMessage = new vscode.TestMessage([message, ...details].join("\n"));
    if (location) testMessage.location = new vscode.Location(vscode.Uri.file(location.file), new vscode.Position(location.line - 1, 0));
    return testMessage;
  }

  /** Debugs the first test that a request selects. Time pauses at the failure or at the end of the test. The user can then step back. */
  async debug(request) {
    const { workspace, debug } = this.vscode;
    const run = this.controller.createTestRun(request);
    const [[, [test]]] = [...this.selectedTests(request)];
    if (test) {
      const configuration = { type: "mcs4", request: "launch", name: test.label, tests: test.uri.fsPath, test: test.label };
      await debug.startDebugging(workspace.getWorkspaceFolder(test.uri), configuration);
    }
    run.end();
  }
}

module.exports = { TestExplorer };
