// Provides tasks for the projects in the workspace: run tests, show the coverage or the profile, search for counterexamples, and prove properties.
"use strict";
const { basename, dirname } = require("node:path");
const { PROJECT_FILE } = require("./bench_files.js");

const TASK_TYPE = "mcs4";
const TASK_COMMANDS = ["test", "cover", "profile", "explore", "prove"];
/** The problem matchers for the output of tasks, which package.json defines. */
const PROBLEM_MATCHERS = ["$mcs4", "$mcs4-line", "$mcs4-test"];

class Tasks {
  /**
   * @param vscode the editor's API module
   * @param {import("./bench_command.js").BenchCommand} bench
   */
  constructor(vscode, bench) {
    this.vscode = vscode;
    this.bench = bench;
  }

  register() {
    return this.vscode.tasks.registerTaskProvider(TASK_TYPE, { provideTasks: () => this.listTasks(), resolveTask: (task) => this.completeTask(task) });
  }

  async listTasks() {
    const files = await this.vscode.workspace.findFiles(`**/${PROJECT_FILE}`, "**/node_modules/**");
    return files.flatMap((uri) => TASK_COMMANDS.map((command) => this.makeTask({ type: TASK_TYPE, command, folder: dirname(uri.fsPath) }, uri)));
  }

  makeTask(definition, uri) {
    const { vscode, bench } = this;
    const { command, folder } = definition;
    const scope = vscode.workspace.getWorkspaceFolder(uri) || vscode.TaskScope.Workspace;
    const name = `${command} ${basename(folder)}`;
    const task = new vscode.Task(definition, scope, name, "MCS-4", bench.describeExecution([command, "-C", folder], folder), PROBLEM_MATCHERS);
    if (command === "test") task.group = vscode.TaskGroup.Test;
    return task;
  }

  /**
   * Completes a task from tasks.json so that the editor can run it. Returns the new task. If the task names no folder, the task runs in the
   * workspace folder. Returns undefined if the command is unknown or there is no folder.
   */
  completeTask({ definition, scope }) {
    const { vscode } = this;
    const [first] = vscode.workspace.workspaceFolders || [];
    const { uri } = scope && scope.uri ? scope : first || { uri: null };
    const folder = definition.folder || (uri ? uri.fsPath : "");
    if (!TASK_COMMANDS.includes(definition.command) || folder === "") return undefined;
    const task = this.makeTask({ ...definition, folder }, uri || vscode.Uri.file(folder));
    // The editor recognises a task by its definition object, so the new task must have the original object.
    task.definition = definition;
    return task;
  }
}

module.exports = { Tasks };
