// `mcs4 dap`: the debug adapter of js/core/adapter on standard input and output. The adapter uses the WebAssembly module from the page.
import { AdapterConnection } from "../../core/adapter/adapter_connection.js";
import { DebugAdapter } from "../../core/adapter/debug_adapter.js";
import { Engine } from "../../core/engine/engine.js";
import { checkArguments, waitForExit } from "../arguments.mjs";
import { host } from "../debug_host.mjs";
import { makeExitFunction, listenToInput, explainAtTerminal } from "../message_server.mjs";
import { errorMessage } from "../output.mjs";
import { readPageData, readPageModule } from "../page_parts.mjs";

const end = makeExitFunction("dap");

/** Starts the debug adapter. */
async function serve() {
  const connection = new AdapterConnection((bytes) => process.stdout.write(bytes));
  const adapter = new DebugAdapter(connection, await Engine.load(readPageModule()), readPageData(), { ...host, end });
  // The client has ended without a disconnect request, or has sent unreadable data. Save the work so far.
  listenToInput(connection, (reason) => {
    connection.queueDone.then(() => adapter.leave()).then((message) => end(1, reason || message));
  });
  process.stdout.on("error", () => adapter.leave().then(() => process.exit(1)));
  for (const signal of ["SIGTERM", "SIGINT", "SIGHUP"]) process.on(signal, () => adapter.leave().then(() => process.exit(1)));
}

/** @type {import("./table.mjs").CommandModule["run"]} */
export function run(_, positionals) {
  checkArguments(positionals, []);
  explainAtTerminal("dap");
  process.stdin.on("error", () => process.exit(1));
  serve().catch((error) => end(1, errorMessage(error)));
  return waitForExit();
}
