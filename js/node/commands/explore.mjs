// `mcs4 explore`: searches for key sequences that violate a property, with the modules of js/core/explore. The search uses the WebAssembly module
// from the page.
import { hasExpectedResult, formatTap, formatReportTests } from "../../core/explore/report.js";
import { resolveFileNames, parseCount, checkArguments } from "../arguments.mjs";
import { exploreAsJob, exploreTexts, readJobSettings, mergeReports } from "../explore_processes.mjs";
import { InputTexts } from "../input_texts.mjs";
import { UsageError, print } from "../output.mjs";
import { createTemporaryFolder } from "../temporary_folders.mjs";
import { checkOutputFile, writeUserFile } from "../user_files.mjs";
import { NOT_COUNTEREXAMPLES, NOT_A_REPORT, cannotCombine } from "../../words/commands.js";

/** The first characters of the files that the command writes. */
const COUNTEREXAMPLES_HEADER = "# Found by ";
const REPORT_HEADER = "{\"form\":\"explore 1\"";
/** The maximum and the default of each numeric option. */
const SECONDS_RANGE = { max: 86400, defaultValue: 10 };
const JOBS_RANGE = { max: 64, defaultValue: 1 };
const SEED_RANGE = { max: 99999999, defaultValue: 1 };
/** The options of a search, which are not allowed with --merge. */
const SEARCH_OPTIONS = ["folder", "seconds", "jobs", "seed", "allow-model"];

/** @type {(name: string, word: string | undefined, range: { max: number, defaultValue: number }) => number} */
const parseOption = (name, word, { max, defaultValue }) => (word === undefined ? defaultValue : parseCount(name, word, max));

/** @type {import("./table.mjs").CommandModule["run"]} */
export async function run(values, positionals) {
  const job = readJobSettings();
  if (job) return exploreAsJob(job);
  const { folder, out, report: reportName, merge } = values;
  const limits = {
    seconds: parseOption("SECONDS", values.seconds, SECONDS_RANGE),
    jobs: parseOption("JOBS", values.jobs, JOBS_RANGE),
    seed: parseOption("SEED", values.seed, SEED_RANGE),
  };
  const unusedOption = merge && SEARCH_OPTIONS.find((name) => values[name] !== undefined);
  if (unusedOption) throw new UsageError(cannotCombine("--merge", unusedOption === "folder" ? "-C" : `--${unusedOption}`));
  const names = merge ? positionals : await resolveFileNames(folder, positionals);
  if (merge) checkArguments(names, ["REPORT"], Infinity);
  else checkArguments(names, ["BOARD", "PROGRAM", "PROPERTIES"], 3, true);
  if (out !== undefined) checkOutputFile(out, COUNTEREXAMPLES_HEADER, NOT_COUNTEREXAMPLES, names);
  if (reportName !== undefined) checkOutputFile(reportName, REPORT_HEADER, NOT_A_REPORT, names);
  const report = merge ? mergeReports(names) : await searchTexts(names, { ...limits, allowsModel: Boolean(values["allow-model"]) });
  if (reportName !== undefined) writeUserFile(reportName, `${JSON.stringify(report)}\n`);
  if (out !== undefined) writeUserFile(out, formatReportTests(report));
  print(formatTap(report));
  return report.properties.every(hasExpectedResult) ? 0 : 1;
}

/**
 * Runs a search. Resolves to its report.
 * @param {string[]} names the file names of board, program and properties
 * @param {Omit<import("../explore_processes.mjs").Settings, "folder" | "texts">} limits
 */
function searchTexts([board, program, properties], limits) {
  const texts = new InputTexts();
  const commandTexts = { board: texts.readText(board, "wire"), program: texts.readText(program, "asm") };
  const source = texts.readSource(properties);
  const folder = createTemporaryFolder("explore");
  return exploreTexts({ ...limits, folder, texts: { ...commandTexts, properties: source } });
}
