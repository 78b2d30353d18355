// `mcs4 lsp`: the language server of js/core/server on standard input and output. The server uses the WebAssembly module from the page.
import { Connection } from "../../core/server/connection.js";
import { LanguageServer } from "../../core/server/language_server.js";
import { Engine } from "../../core/engine/engine.js";
import { checkArguments, waitForExit } from "../arguments.mjs";
import { makeExitFunction, listenToInput, explainAtTerminal } from "../message_server.mjs";
import { errorMessage } from "../output.mjs";
import { readPageData, readPageModule } from "../page_parts.mjs";
import { isInside, readUserText } from "../user_files.mjs";

const end = makeExitFunction("lsp");

/**
 * Returns the text of a file. Returns null if the file cannot be read, or is outside the folder of its project.
 * @type {import("../../core/server/text_kinds.js").ReadText}
 */
function readFile(uri, folder) {
  try {
    const url = new URL(uri);
    return folder === "" || isInside(url, new URL(folder)) ? readUserText(url) : null;
  } catch {
    return null;
  }
}

const pause = () => new Promise((resume) => {
  setImmediate(resume);
});

/** Starts the language server. */
async function serve() {
  const connection = new Connection((bytes) => process.stdout.write(bytes), end);
  const server = new LanguageServer(connection, await Engine.load(readPageModule()), readPageData(), { readFile, pause });
  // A client must send a shutdown request before it closes the stream. Otherwise the exit status is 1.
  listenToInput(connection, (reason) => end(server.connection.state === "shut" && reason === "" ? 0 : 1, reason));
}

/** @type {import("./table.mjs").CommandModule["run"]} */
export function run(_, positionals) {
  checkArguments(positionals, []);
  explainAtTerminal("lsp");
  process.stdout.on("error", () => process.exit(1));
  process.stdin.on("error", () => process.exit(1));
  serve().catch((error) => end(1, errorMessage(error)));
  return waitForExit();
}
