// `mcs4 trace`: prints the next instructions of a session, one per line.
import { readRomCodes } from "../../core/engine/rom_codes.js";
import { SessionTrace } from "../../core/trace/session_trace.js";
import { cannotCombine } from "../../words/commands.js";
import { parseCount, checkArguments, loadProject } from "../arguments.mjs";
import { InputTexts } from "../input_texts.mjs";
import { yieldToMessages, openSession, readCheckedMap, startEngine } from "../native_program.mjs";
import { UsageError, print } from "../output.mjs";

const MAX_CYCLES = 100000;
const MAX_LAST_INSTRUCTIONS = 10000;
const MAX_CYCLES_WITH_LAST = 100000000;

/**
 * Resolves to the file name of the program that supplies labels or source lines, or to undefined if there is none. Throws a UsageError if
 * both options name a program.
 * @param {import("./table.mjs").Values} values
 */
async function findProgramName({ folder, names, source }) {
  if (names !== undefined && source !== undefined) throw new UsageError(cannotCombine("--names", "--source"));
  const project = names === undefined && source === undefined && folder !== undefined ? await loadProject(folder) : null;
  return project ? project.program : names ?? source;
}

/** @type {import("./table.mjs").CommandModule["run"]} */
export async function run(values, words) {
  checkArguments(words, ["SESSION", "CYCLES"]);
  const [session, word] = words;
  const lastCount = values.last === undefined ? 0 : parseCount("N", values.last, MAX_LAST_INSTRUCTIONS);
  const cycles = parseCount("CYCLES", word, lastCount > 0 ? MAX_CYCLES_WITH_LAST : MAX_CYCLES);
  const programName = await findProgramName(values);
  const texts = new InputTexts();
  const program = programName === undefined ? null : texts.readText(programName, "asm");
  const engine = await startEngine();
  const state = await openSession(engine, texts, session);
  const trace = new SessionTrace(engine, state, yieldToMessages);
  const map = program && await readCheckedMap(engine, readRomCodes(engine, state), program);
  const source = program && values.names === undefined ? { lines: program.text.split("\n"), linesBefore: program.linesBefore } : null;
  const names = map && { map, source };
  const pieces = lastCount > 0 ? trace.traceLast(lastCount, cycles, names) : trace.traceNext(cycles, names);
  for await (const lines of pieces) print(lines.map((line) => `${line}\n`).join(""));
  return 0;
}
