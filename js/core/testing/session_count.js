// Computes coverage and a profile over the next cycles of a session.

import { readRomCodes } from "../engine/rom_codes.js";
import { compareWithRom } from "../engine/session_program.js";
import { copyWithoutStops } from "../engine/free_running_copy.js";
import { ExecutionRecorder } from "./recorders.js";
import { computeCoverage } from "./coverage.js";
import { computeProfile } from "./profile.js";
import { TestSession } from "./test_session.js";

/**
 * @typedef {import("../engine/engine_host.js").EngineHost} EngineHost
 * @typedef {import("../engine/engine_host.js").State} State
 * @typedef {import("../engine/session_program.js").ByteDifference} ByteDifference
 * @typedef {import("./coverage.js").Coverage} Coverage
 * @typedef {import("./test_preparation.js").ProjectTextError} ProjectTextError
 * @typedef {import("./profile.js").Profile} Profile
 *
 * The coverage and the profile of a run. `elapsed` is the number of executed cycles, and `stop` is the reason why the run stopped ("end" if
 * all cycles ran).
 * @typedef {{ coverage: Coverage, profile: Profile, elapsed: number, stop: string }} SessionCounts
 *
 * The result of `measureSession`. If the program has errors (`errors`), or if a byte in ROM differs from the program (`difference`), the
 * session does not run, and `counts` is null.
 * @typedef {{ errors: ProjectTextError[], difference: ByteDifference | null, counts: SessionCounts | null }} SessionCountResult
 */

/**
 * Runs a copy of a session for some cycles, and resolves to its coverage and profile. Ignores breakpoints and watches.
 * @param {EngineHost} engine
 * @param {State} state
 * @param {string} programText
 * @param {number} cycles
 * @param {typeof ExecutionRecorder} [RecorderClass] the class of the recorder
 * @returns {Promise<SessionCountResult>}
 */
export async function measureSession(engine, state, programText, cycles, RecorderClass = ExecutionRecorder) {
  const startState = copyWithoutStops(engine, state);
  const codes = readRomCodes(engine, startState);
  const { errors, difference, map } = compareWithRom(engine, codes, programText);
  if (errors.length > 0 || difference) return { errors, difference, counts: null };
  const recorder = new RecorderClass(codes);
  const session = new TestSession(engine, startState, recorder, async () => {});
  const stop = await session.run(cycles);
  session.end();
  const counts = { coverage: computeCoverage(recorder, map), profile: computeProfile(recorder, map), elapsed: session.elapsed, stop };
  return { errors: [], difference, counts };
}
