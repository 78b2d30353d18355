// Checks that the packed extension for Visual Studio Code works if nothing else of Fethsaim is installed: `node packed_extension.mjs EXTENSION
// FOLDER`. EXTENSION is the unpacked extension, and FOLDER is a folder for a workspace. The script acts like the editor, with a stand-in for its
// module. It activates the extension, opens a program, waits for errors, runs and debugs a test, opens the front panel, lets a board print, and runs
// a task. Prints `ok TEXT` or `failed: TEXT` for each check.
import { spawnSync } from "node:child_process";
import { copyFileSync, cpSync, existsSync, mkdirSync, readFileSync, writeFileSync } from "node:fs";
import Module, { createRequire } from "node:module";
import { join } from "node:path";
import { Client } from "./dap_client.mjs";
import { standIn } from "./vscode_stand_in.mjs";

const TOP = new URL("../..", import.meta.url).pathname;
const [extensionFolder, parent] = process.argv.slice(2);
const folder = join(parent, "a board, and its program");
/** The time in milliseconds to wait for each result. It is long, so that a busy machine does not cause an error. */
const TIMEOUT_MS = 60000;

function verdict(actual, expected, description) {
  const [actualText, expectedText] = [JSON.stringify(actual), JSON.stringify(expected)];
  console.log(actualText === expectedText ? `ok ${description}` : `failed: ${description}: ${actualText}, not ${expectedText}`);
}

/** Waits until `find` returns a truthy value. Resolves to that value, or to null after a timeout. */
async function waitUntil(find) {
  for (const end = Date.now() + TIMEOUT_MS; Date.now() < end;) {
    const value = find();
    if (value) return value;
    await new Promise((resume) => { setTimeout(resume, 20); });
  }
  return null;
}

function makeWorkspace() {
  for (const name of ["lock", "lone", "printer"]) mkdirSync(join(folder, name), { recursive: true });
  const copy = (from, to) => copyFileSync(join(TOP, "examples", from), join(folder, to));
  for (const name of ["board.toml", "lock.asm", "lock.test", "lock.props", "mcs4.toml"]) copy(`lock/${name}`, `lock/${name}`);
  for (const name of ["board.toml", "printing_calculator.asm", "mcs4.toml"]) copy(`printing_calculator/${name}`, `printer/${name}`);
  for (const name of ["props", "test"]) copy(`printing_calculator/printing_calculator.${name}`, `printer/printing_calculator.${name}`);
  writeFileSync(join(folder, "lock", "wrong.asm"), readFileSync(join(folder, "lock", "lock.asm"), "utf8").replace("JCN zero, enter", "JMP enter"));
  // A program with the extension .4004, without a project.
  copy("three_lamps/board.toml", "lone/board.toml");
  copy("three_lamps/three_lamps.asm", "lone/three_lamps.4004");
  writeFileSync(join(folder, "lone", "three_lamps.test"), "test it begins\n  run 10\n\ntest it fails\n  run 10\n  expect acc 9\n");
}

/** Sets PATH to an empty folder, and removes the environment variables that could lead to Fethsaim. Checks that mcs4 cannot be started. */
function hideInstallation() {
  const emptyFolder = join(parent, "nothing");
  mkdirSync(emptyFolder);
  process.env.PATH = emptyFolder;
  for (const name of ["MCS4", "MCS4_PROVE", "HOME", "XDG_CACHE_HOME"]) delete process.env[name];
  verdict(spawnSync("mcs4", ["version"]).error?.code, "ENOENT", "mcs4 cannot be started");
}

const diagnosticsOf = ({ shown }, { uri }) => waitUntil(() => shown.diagnostics.has(uri.toString()) && shown.diagnostics.get(uri.toString())
  .map(({ given: [range, message] }) => [range.start.line, message.split("\n")[0]]));

async function tryTexts(editor) {
  const wrongText = editor.open("lock/wrong.asm", "plaintext");
  verdict(wrongText.languageId, "mcs4", "an .asm file in a folder with a board");
  const line = readFileSync(wrongText.fileName, "utf8").split("\n").findIndex((text) => text.includes("JMP enter"));
  verdict(await diagnosticsOf(editor, wrongText), [[line, "JMP is not an instruction; JUN?"]], "errors in a text, without mcs4 on the PATH");
  verdict(await diagnosticsOf(editor, editor.open("lone/three_lamps.4004", "mcs4")), [], "a program with the extension .4004");
  verdict(await diagnosticsOf(editor, editor.open("lone/three_lamps.test", "plaintext")), [], "the tests of a .4004 program");
}

/** Runs a test profile on items. Resolves to the results. */
async function runTests(editor, name, include) {
  const { registered: { tests }, shown } = editor;
  await tests.profiles[name]({ include, exclude: [] }, { isCancellationRequested: false, onCancellationRequested: () => ({ dispose: () => {} }) });
  return shown.runs[shown.runs.length - 1];
}

async function tryTests(editor) {
  const { registered: { tests }, shown } = editor;
  await tests.resolveHandler(undefined);
  const files = [];
  tests.items.forEach((file) => files.push([file.label, file.children.size]));
  const lockTests = readFileSync(join(folder, "lock", "lock.test"), "utf8");
  verdict(files, [["three_lamps.test", 2], ["lock.test", lockTests.match(/^test /gm).length], ["printing_calculator.test", tests.items
    .get(editor.vscode.Uri.file(join(folder, "printer", "printing_calculator.test")).toString()).children.size]], "the texts of tests, with the numbers of their tests");
  const itemsOf = (name) => tests.items.get(editor.vscode.Uri.file(join(folder, name)).toString());
  const lock = itemsOf("lock/lock.test");
  const testRun = await runTests(editor, "Run", [lock]);
  verdict([testRun.isEnded, testRun.results.length, testRun.results.every(([kind]) => kind === "passed")], [true, lock.children.size, true], "tests of a project run");
  const testItems = [];
  itemsOf("lone/three_lamps.test").children.forEach((item) => testItems.push(item));
  const [, failingTest] = testItems;
  verdict([failingTest.label, failingTest.range.start.line], ["it fails", 3], "the line of a test");
  const { results } = await runTests(editor, "Run", testItems);
  const [[, ], [kind, , message]] = results;
  const { given: [uri, at] } = message.location;
  verdict([results[0], kind, uri.fsPath, at.line], [["passed", "it begins"], "failed", join(folder, "lone", "three_lamps.test"), 5], "a failed test, and its location");
  verdict(/^acc is \w+, but must be 9\n/.test(message.given[0]), true, `the message of a failed test: ${message.given[0].split("\n")[0]}`);
  await runTests(editor, "Debug", [failingTest]);
  return shown.launched.pop();
}

/**
 * Starts a debug session as the editor does, with the debug adapter that the extension provides, and passes the adapter's events to the extension.
 * Resolves to the adapter's client.
 */
async function debug(editor, configuration) {
  const { registered, events } = editor;
  const { given: [command, args, { env }] } = registered["adapter mcs4"].createDebugAdapterDescriptor();
  verdict([command, args[args.length - 1], env.ELECTRON_RUN_AS_NODE], [process.execPath, "dap", "1"], "the debug adapter runs on the editor's own Node");
  const client = new Client(command, parent, [], { before: args.slice(0, -1), env: { ...process.env, ...env } });
  const session = { type: "mcs4", configuration, customRequest: (name, args) => client.request(name, args) };
  const tracker = registered["tracker mcs4"].createDebugAdapterTracker(session);
  const { check } = Client.prototype;
  client.check = (message) => {
    check.call(client, message);
    tracker.onDidSendMessage(message);
    if (message.event === "boardShown") events.custom.fire({ session, event: message.event, body: message.body });
  };
  await client.beginSession(configuration);
  return { client, end: async () => {
    await client.endSession();
    events.terminate.fire(session);
    verdict(client.violations, [], "the messages of the adapter follow the protocol");
  } };
}

async function tryDebuggedTest(editor, configuration) {
  const { client, end } = await debug(editor, configuration);
  await client.waitForEvent("stopped");
  const output = client.takeOutput();
  verdict(/three_lamps\.test:6: it fails: acc is \w+, but must be 9/.test(output), true, `a test is debugged: ${output.trim()}`);
  const programCounter = async () => (await client.fetchFrames())[0].instructionPointerReference;
  const before = await programCounter();
  await client.runUntilStop("stepBack");
  verdict(before !== await programCounter(), true, "a step back from the failure");
  await end();
}

async function tryPanel(editor) {
  const { registered, shown, vscode } = editor;
  vscode.window.activeTextEditor = undefined;
  editor.open("printer/printing_calculator.asm", "mcs4");
  await registered["command mcs4.openPanel"]();
  const [{ webview, title, options }] = shown.panels;
  verdict([title, options.enableScripts, options.localResourceRoots.map(({ fsPath }) => fsPath)], ["Lamps and keys", true, [extensionFolder]], "the front panel");
  const [, policy] = /Content-Security-Policy" content="([^"]*)"/.exec(webview.html);
  verdict(policy, "default-src 'none'; script-src vscode-resource:; style-src vscode-resource:; base-uri 'none'; form-action 'none'", "the policy of the front panel");
  const loadedFiles = [...webview.html.matchAll(/(?:src|href)="([^"]*)"/g)].map(([, path]) => path);
  verdict(loadedFiles.map((path) => existsSync(join(extensionFolder, path.replace("vscode-resource:", "")))), [true, true], `the files that the panel loads: ${loadedFiles.join(", ")}`);
  const configuration = shown.launched.pop();
  verdict([configuration.project, configuration.realTime, configuration.stopOnEntry], [join(folder, "printer"), true, false], "the session that is launched for the panel");
  await webview.sendMessage({ isReady: true });
  const { end } = await debug(editor, { ...configuration, realTime: false });
  const boardState = () => Object.assign({}, ...webview.posted.map((message) => message.update || {}));
  verdict(await waitUntil(() => boardState().board && boardState().boardText.includes("printer")), true, "the board is drawn");
  // Press `7` and `+`, which makes the calculator print the operand.
  for (const legend of ["7", "+"]) {
    const keyPosition = keyPositionOf(legend);
    await webview.sendMessage({ place: keyPosition, isDown: true });
    await waitUntil(() => (boardState().keys || []).includes(keyPosition.replace(" ", ".")));
    await new Promise((resume) => { setTimeout(resume, 300); });
    await webview.sendMessage({ place: keyPosition, isDown: false });
    await waitUntil(() => (boardState().keys || []).length === 0);
    await new Promise((resume) => { setTimeout(resume, 300); });
  }
  verdict(Boolean(await waitUntil(() => boardState().printed && boardState().printed.codes.length > 0)), true, "the printout in the panel");
  await webview.sendMessage({ clearsPrintout: true });
  verdict(Boolean(await waitUntil(() => boardState().printed.codes.length === 0)), true, "the printout is cleared");
  await end();
  verdict(webview.posted[webview.posted.length - 1].update, null, "the panel after the end");
}

/** Returns the row and column of a key on the printing calculator, by its legend in the board's text. */
function keyPositionOf(legend) {
  const rows = readFileSync(join(folder, "printer", "board.toml"), "utf8").split("\n").flatMap((line) => {
    const [, row, keys] = /^#\s*row (\d+):\s*(.*)$/.exec(line) || [];
    return row ? [[row, keys.split(/\s+/)]] : [];
  });
  const [row, keys] = rows.find(([, legends]) => legends.includes(legend));
  return `${row} ${keys.indexOf(legend)}`;
}

/** Returns the problems that the problem matchers of package.json find in `text`. */
function problemsIn(text, matchers) {
  return text.split("\n").flatMap((line) => matchers.flatMap(({ pattern: { regexp, file, line: lineGroup, message } }) => {
    const match = new RegExp(regexp).exec(line);
    return match ? [[match[file], match[lineGroup], match[message]]] : [];
  }));
}

async function tryTasks({ registered }, { contributes }) {
  const tasks = await registered["tasks mcs4"].provideTasks();
  verdict(tasks.map(({ given: [, , name] }) => name).slice(0, 5), ["test lock", "cover lock", "profile lock", "explore lock", "prove lock"], "the tasks of a project");
  const run = ({ given: [, , , , { given: [command, args, { cwd, env }] }] }) => spawnSync(command, args, { cwd, env: { ...process.env, ...env }, encoding: "utf8" });
  const { status, stdout } = run(tasks[0]);
  verdict([status, /^1\.\.\d+$/m.test(stdout)], [0, true], "a task runs the tests");
  writeFileSync(join(folder, "lock", "mcs4.toml"), readFileSync(join(folder, "lock", "mcs4.toml"), "utf8").replace("lock.asm", "wrong.asm"));
  const problems = problemsIn(run(tasks[0]).stderr, contributes.problemMatchers);
  const line = readFileSync(join(folder, "lock", "wrong.asm"), "utf8").split("\n").findIndex((text) => text.includes("JMP enter")) + 1;
  verdict(problems.map(([file, number]) => [file, Number(number)]), [[join(folder, "lock", "wrong.asm"), line]], "an error of a task, and its location");
  cpSync(new URL("../../examples/pictures", import.meta.url), join(folder, "pictures"), { recursive: true });
  const proof = run(registered["tasks mcs4"].resolveTask({ definition: { type: "mcs4", command: "prove", folder: join(folder, "pictures") } }));
  verdict([proof.status, /^ok 1 - never .* # proved for all inputs \(9 states\)$/m.test(proof.stdout)], [0, true], `a proof by the module: ${proof.stderr.trim()}`);
  const task = registered["tasks mcs4"].resolveTask({ definition: { type: "mcs4", command: "cover", folder: join(folder, "printer") } });
  verdict(task.given[2], "cover printer", "a task of tasks.json");
}

makeWorkspace();
hideInstallation();
const editor = standIn(folder);
const load = Module._load;
Module._load = (name, ...more) => (name === "vscode" ? editor.vscode : load(name, ...more));
const require = createRequire(import.meta.url);
const manifest = require(join(extensionFolder, "package.json"));
const extension = require(join(extensionFolder, manifest.main));
const uri = editor.vscode.Uri.file(extensionFolder);
await extension.activate({ subscriptions: [], extensionPath: extensionFolder, extensionUri: uri });
verdict(editor.shown.errors, [], "no errors at the start");
verdict(manifest.contributes.languages.map(({ id, extensions }) => [id, extensions]).filter(([, extensions]) => extensions), [["mcs4", [".4004"]]], "the extension's file extension");
await tryTexts(editor);
await tryDebuggedTest(editor, await tryTests(editor));
await tryPanel(editor);
await tryTasks(editor, manifest);
await extension.deactivate();

// The command in the user's settings does not exist. The extension uses its own mcs4 instead, and shows a message about that.
const secondEditor = standIn(folder, { command: join(parent, "none", "mcs4") });
Module._load = (name, ...more) => (name === "vscode" ? secondEditor.vscode : load(name, ...more));
for (const name of Object.keys(require.cache)) if (name.startsWith(extensionFolder)) delete require.cache[name];
const secondExtension = require(join(extensionFolder, manifest.main));
await secondExtension.activate({ subscriptions: [], extensionPath: extensionFolder, extensionUri: uri });
verdict(secondEditor.shown.errors.map((message) => message.replace(/^Cannot start the command .* \(/, "Cannot start the command (")),
  ["Cannot start the command (setting mcs4.command). The extension uses its own commands instead."], "a missing command");
verdict((await diagnosticsOf(secondEditor, secondEditor.open("lock/wrong.asm", "mcs4"))).length, 1, "errors in a text, with a missing command");
await secondExtension.deactivate();
