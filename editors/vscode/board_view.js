// The view "Lamps and keys". It draws the front panel of the board while a program is debugged, and the user can press the keys. The view can be in
// the side bar of the debugger or in a separate panel. The HTML of the view is in board_view.html. editors/vsix builds the view's script and style
// sheet from the bench's web page.
"use strict";
const { readFileSync } = require("node:fs");
const { join } = require("node:path");
const { findProjectFolder } = require("./bench_files.js");

const VIEW_TITLE = "Lamps and keys";

class BoardView {
  constructor(vscode, folder) {
    this.vscode = vscode;
    this.folder = folder;
    /** The open web views, in the side bar and in panels. */
    this.webviews = new Set();
    /** The debug session whose board the view draws, or null if there is none. */
    this.session = null;
    /** The values that the session has reported about the board, or null if there is no session. */
    this.boardState = null;
  }

  /** Fills a web view in the side bar or in a panel. The editor calls this method when it shows the view. */
  resolveWebviewView(view) {
    const { webview } = view;
    webview.options = this.options;
    const uriOf = (name) => String(webview.asWebviewUri(this.vscode.Uri.file(join(this.folder, name))));
    const replacements = { "@SOURCE@": webview.cspSource, "@STYLE@": uriOf("board_page.css"), "@SCRIPT@": uriOf("board_page.js") };
    const text = readFileSync(join(this.folder, "board_view.html"), "utf8");
    webview.onDidReceiveMessage((message) => this.handleMessage(message, webview));
    view.onDidDispose(() => this.webviews.delete(webview));
    this.webviews.add(webview);
    webview.html = text.replace(/@[A-Z]+@/g, (word) => replacements[word] || word);
  }

  get options() {
    return { enableScripts: true, localResourceRoots: [this.vscode.Uri.file(this.folder)] };
  }

  /**
   * Opens a panel. If no program is being debugged, starts debugging in real time. Debugs the project or the program of the active editor,
   * otherwise the first project of the workspace.
   */
  async open() {
    const { window, debug, ViewColumn } = this.vscode;
    const panel = window.createWebviewPanel("mcs4.panel", VIEW_TITLE, { viewColumn: ViewColumn.Beside, preserveFocus: true },
      { ...this.options, retainContextWhenHidden: true });
    this.resolveWebviewView(panel);
    if (this.session) return;
    const configuration = await this.launchConfiguration();
    if (configuration) await debug.startDebugging(undefined, configuration);
    else window.showInformationMessage("No MCS-4 program is open: open one, or a folder with mcs4.toml.");
  }

  /** Resolves to the launch configuration with which a new panel starts debugging; null if there is no program. */
  async launchConfiguration() {
    const { window, workspace } = this.vscode;
    const base = { type: "mcs4", request: "launch", name: VIEW_TITLE, realTime: true, stopOnEntry: false };
    const editor = window.activeTextEditor;
    const file = editor && editor.document.uri.scheme === "file" ? editor.document.uri.fsPath : "";
    const folder = file === "" ? "" : findProjectFolder(file);
    if (folder !== "") return { ...base, project: folder };
    if (file !== "" && editor.document.languageId === "mcs4") return { ...base, program: file };
    const [first] = await workspace.findFiles("**/mcs4.toml", "**/node_modules/**", 1);
    return first ? { ...base, project: first.fsPath } : null;
  }

  /** Handles a message from a web view: the view is ready, or the user has pressed or released a key or cleared the printout. */
  async handleMessage(message, webview) {
    if (message.isReady) {
      webview.postMessage({ kind: "boardShown", update: this.boardState });
      return;
    }
    if (!this.session) return;
    try {
      if (message.clearsPrintout) await this.session.customRequest("clearPrintout");
      else await this.session.customRequest("changeKey", { place: message.place, isDown: message.isDown });
    } catch (error) {
      this.vscode.window.showErrorMessage(error.message);
    }
  }

  /** Sends an update of the front panel to all web views. The update is null when debugging has ended. */
  postUpdate(update) {
    for (const webview of this.webviews) webview.postMessage({ kind: "boardShown", update });
  }

  /** Draws the board of a debug session that has started. */
  async followSession(session) {
    try {
      const boardState = await session.customRequest("watchBoard");
      this.session = session;
      this.boardState = boardState;
      this.postUpdate(boardState);
    } catch (error) {
      this.vscode.window.showErrorMessage(error.message);
    }
  }

  /** Handles a change of the board that the debug session reports: sends it to the web views. */
  handleEvent({ session, event, body }) {
    if (event !== "boardShown" || session !== this.session) return;
    this.boardState = { ...this.boardState, ...body };
    this.postUpdate(body);
  }

  /** Clears the web views if the session whose board they draw has ended. */
  handleSessionEnd(session) {
    if (session !== this.session) return;
    this.session = null;
    this.boardState = null;
    this.postUpdate(null);
  }

  /** Registers the handlers of the editor's events. Returns their disposables. */
  register() {
    const { commands, debug, window } = this.vscode;
    return [
      commands.registerCommand("mcs4.openPanel", () => this.open()),
      window.registerWebviewViewProvider("mcs4.board", this),
      debug.onDidReceiveDebugSessionCustomEvent((event) => this.handleEvent(event)),
      debug.onDidTerminateDebugSession((session) => this.handleSessionEnd(session)),
      debug.registerDebugAdapterTrackerFactory("mcs4", {
        createDebugAdapterTracker: (session) => ({
          onDidSendMessage: ({ type, event }) => {
            if (type === "event" && event === "initialized") this.followSession(session);
          },
        }),
      }),
    ];
  }
}

module.exports = { BoardView };
