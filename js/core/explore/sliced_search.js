// Runs the search for counterexamples in the page's worker, in short pieces. With the same seed, the results are the same as those of
// `mcs4 explore`.
//
//     const { searchSetup, errors } = await prepareSearch(engine, texts);
//     const exploring = new SlicedSearch(engine, texts, searchSetup, { seed: 1, seconds: 20 }, async () => {});
//     const { report, found, isDone } = await exploring.runFor(200);

import { confirmsCounterexample } from "../testing/confirmation.js";
import { prepareTests } from "../testing/test_preparation.js";
import { startCampaign, findLeadingTests } from "./start_state.js";
import { CampaignRun, minimisingCycleLimit, initialProofTime } from "./campaign_run.js";
import { readCampaign } from "./campaign.js";
import { createSubject } from "./subject.js";
import * as say from "../../words/explore.js";

/**
 * @typedef {import("../testing/test_preparation.js").ProjectTextError} ProjectTextError
 * @typedef {import("../engine/engine_host.js").EngineHost} Engine
 * @typedef {import("./campaign.js").Campaign} Campaign
 * @typedef {import("./report.js").Report} Report
 * @typedef {import("./subject.js").Subject} Subject
 * @typedef {{ boardText: string, programText: string, testText: string, propertiesText: string }} ExploredTexts
 * @typedef {{ seed: number, seconds: number }} RunOptions
 * @typedef {{ subject: Subject, campaign: Campaign }} SearchSetup
 * @typedef {import("../testing/test_preparation.js").PreparedTests} PreparedTests
 *
 * The progress of a search: the report so far, the new counterexamples with the session file at the end of each, and whether the search is
 * complete.
 * @typedef {{ report: Report, found: { property: number, file: Uint8Array }[], isDone: boolean }} Progress
 */

/** The duration of one slice of the search, in milliseconds. Between two slices, the time limit is checked. */
const SLICE_MS = 50;

/**
 * Returns the parsed texts, or the errors in them.
 * @param {Engine} engine
 * @param {ExploredTexts} texts
 * @param {boolean} [needsInputs] true if missing inputs are an error
 * @returns {{ parsedTexts: (SearchSetup & { prepared: PreparedTests }) | null, errors: ProjectTextError[] }}
 */
export function parseSearchTexts(engine, { boardText, programText, testText, propertiesText }, needsInputs = true) {
  const { prepared, errors: textErrors } = prepareTests(engine, { boardText, programText });
  if (!prepared) return { parsedTexts: null, errors: textErrors };
  const subject = createSubject(engine, boardText, programText);
  const { campaign, errors } = readCampaign(propertiesText, subject, needsInputs);
  const { from } = campaign;
  if (from) {
    const { message } = findLeadingTests(prepared.names, testText, from.state);
    if (message) errors.push({ line: from.line, column: -1, words: message });
  }
  if (errors.length > 0) return { parsedTexts: null, errors: toPropertyErrors(errors) };
  return { parsedTexts: { subject, campaign, prepared }, errors: [] };
}

/**
 * Adds the text name `properties` to errors in the properties text.
 * @param {{ line: number, words: string }[]} errors
 * @returns {ProjectTextError[]}
 */
function toPropertyErrors(errors) {
  return errors.map(({ line, words }) => ({ text: "properties", number: 0, line, words }));
}

/**
 * Parses the texts and runs the tests that lead to the start state. Resolves to a campaign and its subject at the start state, or to the
 * errors in the texts.
 * @param {Engine} engine
 * @param {ExploredTexts} texts
 * @returns {Promise<{ searchSetup: SearchSetup | null, errors: ProjectTextError[] }>}
 */
export async function prepareSearch(engine, texts) {
  const { parsedTexts, errors } = parseSearchTexts(engine, texts);
  if (!parsedTexts) return { searchSetup: null, errors };
  const { searchSetup, message } = await startCampaign(parsedTexts, parsedTexts.prepared, texts.testText);
  const { from } = searchSetup.campaign;
  if (message && from) return { searchSetup: null, errors: toPropertyErrors([{ line: from.line, words: message }]) };
  return { searchSetup, errors: [] };
}

export class SlicedSearch {
  /**
   * @param {Engine} engine
   * @param {ExploredTexts} texts
   * @param {SearchSetup} searchSetup
   * @param {RunOptions} options
   * @param {() => Promise<void>} yieldToMessages yields to other messages while a counterexample is minimised
   */
  constructor(engine, texts, { subject, campaign }, { seed, seconds }, yieldToMessages) {
    // Confirms a counterexample only if its test fails, and the arrival at a goal only if its test passes.
    const confirm = (/** @type {string} */ test, /** @type {boolean} */ isGoal) => (
      confirmsCounterexample(engine, texts, test, isGoal, yieldToMessages));
    const [cycleLimit, proofTime] = [minimisingCycleLimit(seconds), initialProofTime(seconds)];
    this.campaignRun = new CampaignRun(subject, campaign, seed, confirm, cycleLimit, null, yieldToMessages, proofTime);
  }

  /**
   * Searches for a number of milliseconds, or until it finds a counterexample. Minimising the counterexample can take additional time.
   * @param {number} milliseconds
   * @returns {Promise<Progress>}
   */
  async runFor(milliseconds) {
    const { campaignRun } = this;
    const end = performance.now() + milliseconds;
    /** @type {Progress["found"]} */
    const counterexamples = [];
    while (counterexamples.length === 0 && !campaignRun.isDone && performance.now() < end) {
      const counterexample = await campaignRun.runFor(SLICE_MS);
      if (counterexample && counterexample.violation) {
        counterexamples.push({ property: counterexample.property, file: campaignRun.createSessionFile(counterexample.violation) });
      }
    }
    return { report: this.createReport(), found: counterexamples, isDone: campaignRun.isDone };
  }

  createReport() {
    const { search, proof, model } = this.campaignRun.timeSpent;
    return this.campaignRun.createReport({ names: say.TEXT_NAMES, sums: "", seconds: (search + proof + model) / 1000, isStopped: false });
  }
}
