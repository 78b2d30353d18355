// Creates a sample test for a board that has no tests. If the board has keys, the test presses the first key. The test then expects the
// actual result: the text on the display, or a lamp that is on.

import { convertLampAnswers } from "../board/lamp_answers.js";
import { LAMPS_FORECAST_QUERY, hasScannedDisplay } from "../engine/perceived_text.js";
import { cyclesFromMilliseconds } from "../time/mcs4_time.js";
import * as say from "../../words/text.js";
import { NullRecorder } from "./recorders.js";
import { prepareTests } from "./test_preparation.js";
import { TestSession } from "./test_session.js";
import { runTests } from "./test_suite.js";
import { listNamedKeys } from "./test_text.js";

/**
 * @typedef {import("../engine/engine_host.js").EngineHost} Engine
 * @typedef {import("./test_preparation.js").PreparedTests} PreparedTests
 * @typedef {import("./test_preparation.js").Texts} Texts
 */

/** The time between the key press and the `expect` line, in milliseconds. */
const HOLD_MS = 50;

/**
 * Resolves to test conditions that should be true while a key is down, the most specific condition first.
 * @param {Engine} engine
 * @param {PreparedTests} prepared
 * @param {string} press the command that presses the key, or "" if no key is pressed
 */
async function findConditions(engine, { file, names: { face, board }, codes }, press) {
  const session = new TestSession(engine, file, new NullRecorder(codes), async () => {});
  if (press !== "") session.executeCommand(press);
  await session.run(cyclesFromMilliseconds(HOLD_MS));
  const [display] = convertLampAnswers(face, board, "", session.ask(hasScannedDisplay(face) ? LAMPS_FORECAST_QUERY : "lamps\n")).lines;
  const [marks] = session.ask("lamps\n");
  const litLamp = [...face.lampNumbers].find(([, lamp]) => marks.slice("lamps ".length)[lamp] === "*");
  return [...(display ? [`display ${display}`] : []), ...(litLamp ? [`lamp ${litLamp[0]} on`] : []), ...say.OTHER_CONDITIONS];
}

/**
 * Resolves to the sample test for a board and its program. If the texts have errors, or if the test would fail with any condition, the
 * sample test only runs some cycles.
 * @param {Engine} engine
 * @param {Texts} texts
 */
export async function createSampleTest(engine, texts) {
  const { prepared } = prepareTests(engine, texts);
  if (!prepared) return say.SAMPLE_CYCLE_TEST;
  const [key = null] = listNamedKeys(prepared.names.face).values();
  for (const condition of await findConditions(engine, prepared, key ? key.press : "")) {
    const testText = say.sampleTest(key ? key.name : "", HOLD_MS, condition);
    const { outcomes: [outcome] } = await runTests(engine, { ...texts, testText }, async () => true, { RecorderClass: NullRecorder });
    if (outcome && !outcome.failure) return testText;
  }
  return say.SAMPLE_CYCLE_TEST;
}
