// Runs `mcs4 new` at a terminal. Without a terminal, the launcher script runs the native program directly, without this module.
import { checkArguments } from "../arguments.mjs";
import { servePrompt } from "../session_terminal.mjs";

/** @type {import("./table.mjs").CommandModule["run"]} */
export function run(_, positionals) {
  checkArguments(positionals, ["FILE"]);
  return servePrompt("new", positionals[0]);
}
