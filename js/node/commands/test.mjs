// `mcs4 test`: runs tests of a program and prints the results as TAP.
import { NullRecorder } from "../../core/testing/recorders.js";
import { formatTestTap } from "../../core/testing/tap.js";
import { runTestCommand } from "../test_commands.mjs";

/** @type {import("./table.mjs").CommandModule["run"]} */
export function run({ folder }, positionals) {
  return runTestCommand({ name: "test", RecorderClass: NullRecorder, formatOutcome: formatTestTap }, folder, positionals);
}
