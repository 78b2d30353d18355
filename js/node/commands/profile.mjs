// `mcs4 profile`: prints how many machine cycles a program spends below each label.
import { ExecutionRecorder } from "../../core/testing/recorders.js";
import { profileText } from "../../core/testing/profile_text.js";
import { print } from "../output.mjs";
import { runTestsOrSession } from "../test_commands.mjs";

/** @type {import("./table.mjs").CommandModule["run"]} */
export function run({ folder, session }, positionals) {
  return runTestsOrSession({
    name: "profile",
    RecorderClass: ExecutionRecorder,
    printCounts: ({ profile }) => print(profileText(profile)),
  }, { folder, session }, positionals);
}
