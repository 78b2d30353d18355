// `mcs4 cover`: prints how often each line of a program ran.
import { LineRecorder } from "../../core/testing/recorders.js";
import { coverageText, lcovText } from "../../core/testing/coverage_text.js";
import { NOT_AN_LCOV_FILE } from "../../words/commands.js";
import { print } from "../output.mjs";
import { runTestsOrSession } from "../test_commands.mjs";
import { checkOutputFile, writeUserFile } from "../user_files.mjs";

/** The text at the beginning of an LCOV file. */
const LCOV_HEADER = "TN:";

/** @type {import("./table.mjs").CommandModule["run"]} */
export function run({ folder, lcov, session }, positionals) {
  return runTestsOrSession({
    name: "cover",
    RecorderClass: LineRecorder,
    checkNames: (names) => {
      if (lcov !== undefined) checkOutputFile(lcov, LCOV_HEADER, NOT_AN_LCOV_FILE, names);
    },
    printCounts: ({ coverage }, program) => {
      print(coverageText(coverage, program));
      if (lcov !== undefined) writeUserFile(lcov, lcovText(coverage, program));
    },
  }, { folder, session }, positionals);
}
