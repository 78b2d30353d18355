// Starts the bench's commands. A user setting can name the program that runs them. By default, the extension's own program runs them with the
// editor's Node, so that the user needs no other software.
"use strict";
const { spawn } = require("node:child_process");
const { join } = require("node:path");

/** The environment that makes the editor's executable run as Node. */
const RUN_AS_NODE_ENVIRONMENT = { ELECTRON_RUN_AS_NODE: "1" };

class BenchCommand {
  /**
   * @param vscode the editor's API module
   * @param {string} folder the extension's folder
   */
  constructor(vscode, folder) {
    this.vscode = vscode;
    this.bundledScript = join(folder, "bench", "js", "node", "mcs4.cjs");
    /** True if the program in the user setting did not start. The extension's own program is then used instead. */
    this.hasSettingFailed = false;
  }

  /** The program that the user setting names; "" if it names none. */
  get configuredCommand() {
    return this.hasSettingFailed ? "" : this.vscode.workspace.getConfiguration("mcs4").get("command") || "";
  }

  /** The program to start, its arguments before the command's name, and the variables to add to its environment. */
  get launchCommand() {
    const { configuredCommand, bundledScript } = this;
    if (configuredCommand !== "") return { program: configuredCommand, prefix: [], env: {} };
    return { program: process.execPath, prefix: [bundledScript], env: RUN_AS_NODE_ENVIRONMENT };
  }

  /**
   * Starts a command. Returns the process.
   * @param {string[]} args the name of the command and its arguments
   * @param {"pipe" | "ignore"} errors whether the command's standard error is read or ignored
   */
  start(args, errors) {
    const { program, prefix, env } = this.launchCommand;
    return spawn(program, [...prefix, ...args], { env: { ...process.env, ...env }, stdio: ["pipe", "pipe", errors], windowsHide: true });
  }

  /**
   * Runs a command until it ends. Resolves to its output, its standard error and its exit status. The status is null if the command did not
   * start or a signal ended it.
   * @param {string[]} args the name of the command and its arguments
   * @param token the cancellation token
   */
  run(args, token) {
    return new Promise((settle) => {
      const child = this.start(args, "pipe");
      const outputTexts = { output: "", errors: "" };
      child.stdout.setEncoding("utf8").on("data", (text) => {
        outputTexts.output += text;
      });
      child.stderr.setEncoding("utf8").on("data", (text) => {
        outputTexts.errors += text;
      });
      child.stdin.on("error", () => {});
      child.stdin.end();
      const cancellation = token && token.onCancellationRequested(() => child.kill());
      const finish = (status, startError) => {
        if (cancellation) cancellation.dispose();
        settle({ status, output: outputTexts.output, errors: outputTexts.errors + startError });
      };
      child.on("error", ({ message }) => finish(null, message));
      child.on("close", (status) => finish(status, ""));
    });
  }

  /**
   * Returns the editor's description of a debug adapter.
   * @param {string[]} args the name of the command and its arguments
   */
  describeDebugAdapter(args) {
    const { program, prefix, env } = this.launchCommand;
    return new this.vscode.DebugAdapterExecutable(program, [...prefix, ...args], { env });
  }

  /**
   * Returns the editor's description of a command that a task runs.
   * @param {string[]} args the name of the command and its arguments
   * @param {string} cwd the working directory
   */
  describeExecution(args, cwd) {
    const { program, prefix, env } = this.launchCommand;
    return new this.vscode.ProcessExecution(program, [...prefix, ...args], { cwd, env });
  }
}

module.exports = { BenchCommand };
