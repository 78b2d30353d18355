// The search of `mcs4 explore`. Runs one search in this process, or several jobs in separate processes. `mcs4 test` must confirm each counterexample.
import { createHash } from "node:crypto";
import { writeFileSync } from "node:fs";
import { dirname, join } from "node:path";
import { Engine } from "../core/engine/engine.js";
import { startCampaign } from "../core/explore/start_state.js";
import { readCampaign } from "../core/explore/campaign.js";
import { CampaignRun, minimisingCycleLimit, initialProofTime } from "../core/explore/campaign_run.js";
import { joinReports, propertyLocation, formatSteps } from "../core/explore/report.js";
import { createSubject } from "../core/explore/subject.js";
import { prepareTests } from "../core/testing/test_preparation.js";
import * as say from "../words/commands.js";
import { yieldToMessages, interruptChildren, rerunCommand, runCommand } from "./child_processes.mjs";
import { createRejectedTextsError } from "./native_program.mjs";
import { CommandError, errorMessage, printError } from "./output.mjs";
import { readPageModule } from "./page_parts.mjs";
import { readUserText, writeUserFile } from "./user_files.mjs";

/**
 * @typedef {import("../core/explore/campaign.js").Campaign} Campaign
 * @typedef {import("../core/explore/report.js").Report} Report
 * @typedef {import("./input_texts.mjs").InputText} InputText
 *
 * The settings of a search. `seconds` is its duration, `jobs` the number of processes, and `seed` the seed of its random numbers. `allowsModel` is
 * true if the search is allowed to run the model command of the properties file. `folder` is a temporary folder.
 * @typedef {{ seconds: number, jobs: number, seed: number, allowsModel: boolean, folder: string,
 *   texts: { board: InputText, program: InputText, properties: { name: string, text: string } } }} Settings
 */

/** The time in milliseconds for which the search runs before it checks the clock and signals. */
const SLICE_TIME = 50;
/** The maximum sizes of a test file and of a report, in bytes. */
const MAX_TEST_BYTES = 1048576;
const MAX_REPORT_BYTES = 16777216;
/** The environment variable that contains the name of a job's settings file. */
const JOB_VARIABLE = "MCS4_EXPLORE_JOB";

/** True after Ctrl-C. */
let isStopped = false;

/**
 * Returns the text of the tests that save the start state of a campaign; "" if the campaign has no start state. If the campaign names no
 * test file, reads the `.test` file next to the properties file. Throws an error if the file cannot be read.
 * @param {Campaign} campaign
 * @param {string} name the name of the properties file
 */
function readStartTests({ from }, name) {
  if (!from) return "";
  const file = from.file ? join(dirname(name), from.file) : `${name.replace(/\.props$/, "")}.test`;
  try {
    return readUserText(file, MAX_TEST_BYTES);
  } catch (error) {
    throw new CommandError(say.testsMustSave(name, from.line, errorMessage(error), from.state));
  }
}

/**
 * Asks a model what the display must show after each key sequence. The model is a shell command that reads one sequence per line and prints one line
 * for each. Resolves to the printed lines, or to an error message if the command fails or prints a different number of lines.
 * @param {string} command
 * @param {string[]} keySequences
 * @returns {Promise<import("../core/explore/model.js").ModelOutput>}
 */
async function askModel(command, keySequences) {
  const { status, stdout, stderr, signal } = await runCommand("sh", ["-c", command], `${keySequences.join("\n")}\n`);
  const lines = stdout.split("\n").slice(0, -1);
  const [firstLine] = stderr.split("\n");
  if (status !== 0) return { expectedTexts: [], error: say.modelEnded(signal || `status ${status}`, firstLine) };
  return { expectedTexts: lines, error: lines.length === keySequences.length ? "" : say.modelPrinted(lines.length, keySequences.length) };
}

/** The search of one campaign. A campaign consists of the properties in one file. */
class Exploration {
  /**
   * @param {Engine} engine
   * @param {Settings} settings
   */
  constructor(engine, settings) {
    this.engine = engine;
    this.settings = settings;
    const { board, program, properties } = settings.texts;
    this.names = { board: board.name, program: program.name, properties: properties.name };
    this.files = { board: join(settings.folder, "board_text"), program: join(settings.folder, "program_text") };
  }

  /**
   * Prepares the search. Resolves to the subject of the search (the board and its program in the start state), the campaign, and all texts that
   * determine the result. Throws an error if one of the texts is rejected.
   */
  async readTexts() {
    const { engine, settings: { texts: { board, program, properties } } } = this;
    const { prepared, errors: textErrors } = prepareTests(engine, { boardText: board.text, programText: program.text });
    if (!prepared) throw await createRejectedTextsError(engine, { board, program }, textErrors);
    const subject = createSubject(engine, board.text, program.text, program.linesBefore);
    const { campaign, errors } = readCampaign(properties.text, subject);
    if (errors.length > 0) throw new CommandError(errors.map(({ line, words }) => `${properties.name}:${line}: ${words}`).join("\n"));
    const testText = readStartTests(campaign, properties.name);
    const { searchSetup, message } = await startCampaign({ subject, campaign }, prepared, testText);
    if (message) throw new CommandError(`${properties.name}:${campaign.from ? campaign.from.line : 0}: ${message}`);
    return { ...searchSetup, texts: [board.text, program.text, properties.text, testText] };
  }

  /**
   * Prints the command of a model before the command runs for the first time.
   * @param {Campaign} campaign
   */
  announceModel({ command, properties }) {
    const model = properties.find(({ form }) => form === "model");
    if (model && this.settings.allowsModel) printError(`# ${say.runsModelCommand(this.names.properties, model.line, command)}\n`);
  }

  /**
   * Resolves to true if `mcs4 test` confirms a counterexample, given as a test. Repeats the run once if Ctrl-C stopped it.
   * @param {string} test
   * @param {boolean} isGoal
   */
  async confirm(test, isGoal) {
    const name = join(this.settings.folder, `find.${process.pid}.test`);
    writeFileSync(name, test);
    for (let attempt = 1; attempt <= 2; attempt++) {
      const { status, stdout } = await runCommand(process.execPath, [process.argv[1], "test", this.files.board, this.files.program, name]);
      if (/^(not )?ok 1/m.test(stdout)) return isGoal ? status === 0 : status === 1;
    }
    return false;
  }

  /**
   * Runs one search, with the seed in the settings. Prints each counterexample when it is found. Resolves to the report.
   * @param {Awaited<ReturnType<Exploration["readTexts"]>>} searchInputs
   * @returns {Promise<Report>}
   */
  async search({ subject, campaign, texts }) {
    const { settings: { seconds, seed, allowsModel }, names } = this;
    const model = allowsModel ? (/** @type {string[]} */ keySequences) => askModel(campaign.command, keySequences) : null;
    /** @type {import("../core/explore/campaign_run.js").ConfirmTest} */
    const confirm = (test, isGoal) => this.confirm(test, isGoal);
    const campaignRun = new CampaignRun(
      subject, campaign, seed, confirm, minimisingCycleLimit(seconds), model, yieldToMessages, initialProofTime(seconds),
    );
    const startUsage = process.cpuUsage();
    const endTime = performance.now() + 1000 * seconds;
    while (performance.now() < endTime && !isStopped && !campaignRun.isDone) {
      const counterexample = await campaignRun.runFor(SLICE_TIME);
      if (campaignRun.error && !isStopped) {
        throw new CommandError(`${names.properties}:${campaign.properties[campaignRun.modelIndex].line}: ${campaignRun.error}`);
      }
      if (counterexample) this.printCounterexample(campaign.properties[counterexample.property], counterexample.counterexample);
      await yieldToMessages();
    }
    const { user, system } = process.cpuUsage(startUsage);
    for (const test of campaignRun.unconfirmedTests) printError(`explore: ${say.testDoesNotFail(test)}`);
    const sums = createHash("sha256").update(JSON.stringify(texts)).digest("hex");
    return campaignRun.createReport({ names, sums, seconds: (user + system) / 1e6, isStopped });
  }

  /**
   * Prints a counterexample to standard error.
   * @param {import("../core/explore/properties.js").Property} property
   * @param {import("../core/explore/report.js").Counterexample} counterexample
   */
  printCounterexample(property, { steps }) {
    printError(`# ${say.foundLine(propertyLocation(property, { names: this.names }), property.text, property.isGoal, formatSteps(steps))}\n`);
  }

  /**
   * Runs one search in another process. Resolves to the exit status of the process and the file name of its report.
   * @param {number} seed
   */
  async runJob(seed) {
    const { settings } = this;
    const reportFile = join(settings.folder, `report.${seed}`);
    const settingsFile = join(settings.folder, `job.${seed}`);
    writeFileSync(settingsFile, JSON.stringify({ ...settings, seed, reportFile }));
    return { status: await rerunCommand({ ...process.env, [JOB_VARIABLE]: settingsFile }), reportFile };
  }

  /** Runs all jobs in parallel, or a single job in this process. Resolves to the combined report. Throws an error if a job fails. */
  async searchAll() {
    const { files, settings: { jobs, seed, texts } } = this;
    writeFileSync(files.board, texts.board.text);
    writeFileSync(files.program, texts.program.text);
    const searchInputs = await this.readTexts();
    this.announceModel(searchInputs.campaign);
    if (jobs === 1) return this.search(searchInputs);
    const jobResults = await Promise.all([...Array(jobs).keys()].map((job) => this.runJob(seed + job)));
    const failedJob = jobResults.find(({ status }) => status === null || status > 1);
    if (failedJob) throw new CommandError(say.jobEnded(failedJob.status));
    return mergeReports(jobResults.map(({ reportFile }) => reportFile));
  }
}

/**
 * Reads the report of another search. Throws an error if the file is not a report.
 * @param {string} name
 * @returns {Report}
 */
function readReport(name) {
  const text = readUserText(name, MAX_REPORT_BYTES);
  try {
    const report = JSON.parse(text);
    if (report.form === "explore 1") return report;
  } catch {
    // The text is not JSON. The last statement reports this, too.
  }
  throw new CommandError(say.notAReportMessage(name));
}

/**
 * Returns the combined report of several searches. Throws an error if the board, the program, the properties or the tests differ between the
 * searches.
 * @param {string[]} names
 */
export function mergeReports(names) {
  const reports = names.map(readReport);
  const joinedReport = joinReports(reports);
  if (joinedReport) return joinedReport;
  const index = reports.findIndex(({ sums }) => sums !== reports[0].sums);
  throw new CommandError(say.differentTexts(names[index], names[0]));
}

/**
 * Loads the engine for a search, and makes Ctrl-C stop the search. Resolves to the search.
 * @param {Settings} settings
 */
async function startExploration(settings) {
  process.on("SIGINT", () => {
    isStopped = true;
    interruptChildren();
  });
  return new Exploration(await Engine.load(readPageModule()), settings);
}

/**
 * Runs a search with all its jobs. Resolves to the report.
 * @param {Settings} settings
 */
export async function exploreTexts(settings) {
  return (await startExploration(settings)).searchAll();
}

/**
 * Returns the settings of this process if it is a job of another process, otherwise null. `reportFile` is the file to which the job writes its
 * report.
 * @returns {Settings & { reportFile: string } | null}
 */
export function readJobSettings() {
  const name = process.env[JOB_VARIABLE];
  return name ? JSON.parse(readUserText(name, 2 * MAX_REPORT_BYTES)) : null;
}

/**
 * Runs a search as a job of another process, and writes its report. Resolves to the exit status.
 * @param {Settings & { reportFile: string }} settings
 */
export async function exploreAsJob(settings) {
  const exploration = await startExploration(settings);
  const report = await exploration.search(await exploration.readTexts());
  writeUserFile(settings.reportFile, `${JSON.stringify(report)}\n`);
  return 0;
}
