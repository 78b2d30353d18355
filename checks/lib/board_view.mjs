// Runs the lamps and keys view of the Visual Studio Code extension with stand-ins for the editor: `node board_view.mjs FOLDER`. FOLDER is the
// unpacked extension. The script uses the extension's module and the real debug adapter, which debugs the lock in real time. Each line of
// standard input is JSON: `{ fromPage }` is a message from the view's page, `{ request, args }` is a request to the adapter, and `{ end }`
// ends the script. Each line of standard output is also JSON: `{ html }` is the view's HTML, and `{ toPage }` is a message for the page. `{
// response, body }` is the response to a request, `{ stopped }` is a stop of the program, and `{ error }` is an error.
import { createRequire } from "node:module";
import { createInterface } from "node:readline";
import { Client } from "./dap_client.mjs";

const TOP = new URL("../..", import.meta.url).pathname;
const [folder] = process.argv.slice(2);
const { BoardView } = createRequire(import.meta.url)(`${folder}/board_view.js`);

const writeMessage = (message) => process.stdout.write(`${JSON.stringify(message)}\n`);
const listeners = {};
/** Returns a function that stores a listener under a name in `listeners`. */
const storeListenerAs = (name) => (act) => {
  listeners[name] = act;
  return { dispose: () => {} };
};
const vscode = {
  commands: { registerCommand: () => ({ dispose: () => {} }) },
  Uri: { file: (path) => ({ path }) },
  window: { registerWebviewViewProvider: (_, provider) => storeListenerAs("view")(provider), showErrorMessage: (error) => writeMessage({ error }) },
  debug: {
    onDidReceiveDebugSessionCustomEvent: storeListenerAs("event"), onDidTerminateDebugSession: storeListenerAs("end"),
    registerDebugAdapterTrackerFactory: (_, factory) => storeListenerAs("tracker")(factory),
  },
};
new BoardView(vscode, folder).register();
const webview = {
  cspSource: "file:", asWebviewUri: ({ path }) => path.split("/").pop(),
  postMessage: (toPage) => writeMessage({ toPage }), onDidReceiveMessage: storeListenerAs("fromPage"),
};
listeners.view.resolveWebviewView({ webview, onDidDispose: storeListenerAs("closed") });
writeMessage({ html: webview.html });

const client = new Client(`${TOP}mcs4`);
const session = { customRequest: (command, args) => client.request(command, args) };
const tracker = listeners.tracker.createDebugAdapterTracker(session);
client.check = (message) => {
  tracker.onDidSendMessage(message);
  if (message.event === "boardShown") listeners.event({ session, event: message.event, body: message.body });
  if (message.event === "stopped") writeMessage({ stopped: message.body.reason });
};
const lock = { board: `${TOP}examples/lock/board.toml`, program: `${TOP}examples/lock/lock.asm` };
await client.beginSession({ ...lock, realTime: true });

for await (const line of createInterface({ input: process.stdin })) {
  const { fromPage, request, args, end } = JSON.parse(line);
  if (fromPage) await listeners.fromPage(fromPage);
  if (request) writeMessage({ response: request, body: await client.request(request, args).catch(({ message }) => message) });
  if (end) break;
}
await client.endSession();
listeners.end(session);
process.stdin.destroy();
