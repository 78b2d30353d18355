// The entry point of the extension. It starts the bench's language server and debug adapter, and provides tests, tasks and the front panel.
"use strict";
const vscode = require("vscode");
const { BenchCommand } = require("./bench_command.js");
const { BoardView } = require("./board_view.js");
const { LanguageClient } = require("./language_client.js");
const { ProgramLanguage } = require("./program_language.js");
const { Tasks } = require("./tasks.js");
const { TestExplorer } = require("./test_explorer.js");

const LANGUAGE_IDS = ["mcs4", "mcs4-board", "mcs4-test", "mcs4-props"];

/**
 * Returns the debug configuration to use. If the user presses F5 without a launch configuration, and the active editor contains a program,
 * this is a configuration for that program.
 */
function resolveConfiguration(folder, configuration) {
  if (configuration.type) return configuration;
  const editor = vscode.window.activeTextEditor;
  if (!editor || editor.document.languageId !== "mcs4") return configuration;
  return { type: "mcs4", request: "launch", name: "This program on its board", program: editor.document.uri.fsPath };
}

async function pressKey() {
  const session = vscode.debug.activeDebugSession;
  if (!session || session.type !== "mcs4") {
    vscode.window.showInformationMessage("No program is being debugged: start one with F5.");
    return;
  }
  const key = await vscode.window.showInputBox({ prompt: "Name of the key, as in the board's text" });
  if (!key) return;
  try {
    await session.customRequest("pressKey", { key });
  } catch (error) {
    vscode.window.showErrorMessage(error.message);
  }
}

let client = null;

exports.activate = (context) => {
  const bench = new BenchCommand(vscode, __dirname);
  client = new LanguageClient(vscode, bench, LANGUAGE_IDS);
  context.subscriptions.push(
    client,
    new ProgramLanguage(vscode).register(),
    vscode.debug.registerDebugAdapterDescriptorFactory("mcs4", { createDebugAdapterDescriptor: () => bench.describeDebugAdapter(["dap"]) }),
    vscode.debug.registerDebugConfigurationProvider("mcs4", { resolveDebugConfiguration: resolveConfiguration }),
    vscode.commands.registerCommand("mcs4.pressKey", pressKey),
    new Tasks(vscode, bench).register(),
    ...new TestExplorer(vscode, bench).register(),
    ...new BoardView(vscode, __dirname).register(),
  );
  return client.activate();
};

exports.deactivate = () => (client ? client.shutDown() : undefined);
