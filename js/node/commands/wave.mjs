// `mcs4 wave`: prints the levels of a board's lines over time as a VCD file, or writes the sound of a buzzer as a WAV file.
import { readBoard } from "../../core/bench/answers.js";
import { hasOutput } from "../../core/board/face_board.js";
import { Face } from "../../core/board/face.js";
import { readRomCodes } from "../../core/engine/rom_codes.js";
import { copyWithoutStops } from "../../core/engine/free_running_copy.js";
import { linesWithMembers, recordPieces } from "../../core/engine/wave_stream.js";
import { findNameErrors, wireBoard } from "../../core/testing/test_preparation.js";
import { UnknownLineError, chooseLines, listRequestableNames } from "../../core/waves/line_choice.js";
import { VcdText } from "../../core/waves/vcd.js";
import { createRecordedProgram } from "../../core/waves/wave_program.js";
import { createWav } from "../../core/waves/wav.js";
import * as say from "../../words/commands.js";
import { parseCount, checkArguments, loadProject } from "../arguments.mjs";
import { InputTexts } from "../input_texts.mjs";
import { yieldToMessages, createRejectedTextsError, openSession, readCheckedMap, startEngine } from "../native_program.mjs";
import { CommandError, UsageError, print, printError } from "../output.mjs";
import { checkOutputFile, writeUserFile } from "../user_files.mjs";

/**
 * @typedef {import("../input_texts.mjs").InputText} InputText
 * @typedef {import("./table.mjs").Values} Values
 *
 * An opened session. `state` is its state without breakpoints or watches. `boardText` is the text of its board; null if the user names
 * none. `program` is the program with its labels; null if the user names none.
 * @typedef {{ face: Face, state: Uint8Array, boardText: InputText | null, board: import("../../core/bench/answers.js").Board,
 *   engine: import("../../core/engine/engine_host.js").EngineHost,
 *   program: import("../../core/engine/wave_recorder.js").RecordedProgram | null }} OpenedSession
 */

const MAX_CYCLES = 10000000;
/** The text at the beginning of a WAV file. */
const WAV_HEADER = "RIFF";

/**
 * Resolves to the file names of board and program, from the options or from the project. A name is undefined if there is none.
 * @param {Values} values
 */
async function resolveNames({ folder, board, names }) {
  const project = folder === undefined ? null : await loadProject(folder);
  return { board: board ?? (project ? project.board : undefined), program: names ?? (project ? project.program : undefined) };
}

/**
 * Throws an error if a board's text does not describe the session's board, or if its front panel names chips or lines that the board does not have.
 * @param {OpenedSession["engine"]} engine
 * @param {InputText} boardFile
 * @param {string[]} sessionAnswers the session's answers to `board`
 */
async function checkBoard(engine, boardFile, sessionAnswers) {
  const { errors, answers } = wireBoard(engine, boardFile.text);
  if (errors.length > 0) throw await createRejectedTextsError(engine, { board: boardFile }, errors);
  if (answers.join() !== sessionAnswers.join()) throw new CommandError(say.boardDiffers(boardFile.name));
  const nameErrors = findNameErrors(new Face(boardFile.text), readBoard(answers));
  if (nameErrors.length > 0) throw await createRejectedTextsError(engine, { board: boardFile }, nameErrors);
}

/**
 * Opens a session and reads its board and program.
 * @param {string} session
 * @param {{ board: string | undefined, program: string | undefined }} names
 * @returns {Promise<OpenedSession>}
 */
async function openWiredSession(session, { board: boardName, program: programName }) {
  const texts = new InputTexts();
  const engine = await startEngine();
  const openedState = await openSession(engine, texts, session);
  const boardText = boardName === undefined ? null : texts.readText(boardName, "wire");
  const program = programName === undefined ? null : texts.readText(programName, "asm");
  const answers = engine.ask(openedState, "board\n").answers;
  if (boardText) await checkBoard(engine, boardText, answers);
  const map = program && await readCheckedMap(engine, readRomCodes(engine, openedState), program);
  const state = copyWithoutStops(engine, openedState);
  const face = new Face(boardText ? boardText.text : "");
  return { engine, state, board: readBoard(answers), boardText, face, program: map && createRecordedProgram(map, program.text) };
}

/** @type {(session: OpenedSession) => string} */
const boardTextOf = ({ boardText }) => (boardText ? boardText.text : "");

/**
 * Returns the result of `choose`, a function that chooses lines. Throws a CommandError if a line does not exist on the board.
 * @template Result
 * @param {() => Result} choose
 */
function convertLineErrors(choose) {
  try {
    return choose();
  } catch (error) {
    throw error instanceof UnknownLineError ? new CommandError(error.message) : error;
  }
}

/**
 * Prints a message if the program stopped before the recording was complete.
 * @param {import("../../core/waves/wave_recording.js").Waves} waves
 * @param {number} requestedCycles the length of a complete recording
 */
function reportStop({ isStuck, cycles }, requestedCycles) {
  if (isStuck && cycles < requestedCycles) printError(`wave: ${say.stoppedAtCode(cycles)}\n`);
}

/**
 * Prints the recording as a VCD file.
 * @param {OpenedSession} openedSession
 * @param {number} cycles
 * @param {string[]} words
 */
async function printVcd(openedSession, cycles, words) {
  const { engine, state, board, program } = openedSession;
  const choice = convertLineErrors(() => chooseLines(board, boardTextOf(openedSession), program !== null, words));
  const { lines, chosenIndices } = linesWithMembers(choice.lines, choice.chosenIndices);
  /** @type {VcdText | null} */
  let vcdText = null;
  for await (const waves of recordPieces(engine, state, { lines, program, cycles }, yieldToMessages)) {
    if (!vcdText) {
      vcdText = new VcdText(waves, chosenIndices);
      print(vcdText.formatHeader());
    }
    for (const part of vcdText.formatChanges()) print(part);
  }
  if (!vcdText) return;
  print(vcdText.formatEnd());
  reportStop(vcdText.waves, cycles);
}

/**
 * Returns the line that drives the buzzer of the front panel. Throws a CommandError if there is no such line.
 * @param {OpenedSession} openedSession
 */
function findPanelBuzzerLine({ board, boardText, face: { buzzer } }) {
  if (!boardText) throw new CommandError(say.NO_BUZZER_GIVEN);
  if (!buzzer) throw new CommandError(say.noBuzzerMessage(boardText.name));
  if (hasOutput(board, buzzer.place)) return buzzer.place;
  throw new CommandError(say.noOutputAtMessage(boardText.name, buzzer.line + boardText.linesBefore, buzzer.place));
}

/**
 * Returns the output line whose sound the user wants: `word` if it is given; otherwise the line that the front panel names. Throws an error
 * if the board does not have this output line.
 * @param {OpenedSession} openedSession
 * @param {string | undefined} word
 */
function findBuzzerLine(openedSession, word) {
  const name = word ?? findPanelBuzzerLine(openedSession);
  const isOutput = /^(rom|ram|chain)[\d.]*\.\d+$/.test(name) && hasOutput(openedSession.board, name);
  if (!isOutput) throw new CommandError(say.noOutputLineMessage(name));
  return name;
}

/**
 * Writes the buzzer's sound as a WAV file.
 * @param {OpenedSession} openedSession
 * @param {number} cycles
 * @param {string | undefined} word
 * @param {string} name the file name
 */
async function writeWav(openedSession, cycles, word, name) {
  const { engine, state, board } = openedSession;
  const line = findBuzzerLine(openedSession, word);
  const choice = convertLineErrors(() => chooseLines(board, "", false, [line]));
  const { lines, chosenIndices } = linesWithMembers(choice.lines, choice.chosenIndices);
  const edges = [];
  let [level, recordedCycles] = [-1, 0];
  for await (const waves of recordPieces(engine, state, { lines, program: null, cycles }, yieldToMessages)) {
    if (level < 0) level = waves.numberAt(chosenIndices[0], 0);
    for (const edge of waves.changesOf(chosenIndices[0])) edges.push(edge);
    recordedCycles = waves.cycles;
    if (recordedCycles < cycles && waves.isStuck) reportStop(waves, cycles);
  }
  writeUserFile(name, createWav(level, edges, recordedCycles));
}

/** @type {import("./table.mjs").CommandModule["run"]} */
export async function run(values, words) {
  const { lines: isList, wav } = values;
  if (isList && wav !== undefined) throw new UsageError(say.cannotCombine("--lines", "--wav"));
  if (wav !== undefined && values.names !== undefined) throw new UsageError(say.SOUND_NEEDS_NO_NAMES);
  checkArguments(words, isList ? ["SESSION"] : ["SESSION", "CYCLES"], isList ? 1 : wav === undefined ? Infinity : 3);
  const [session, word, ...lines] = words;
  const cycles = isList ? 0 : parseCount("CYCLES", word, MAX_CYCLES);
  const names = await resolveNames(values);
  if (wav !== undefined) checkOutputFile(wav, WAV_HEADER, say.NOT_A_WAV_FILE, names.board === undefined ? [session] : [session, names.board]);
  const openedSession = await openWiredSession(session, wav === undefined ? names : { ...names, program: undefined });
  const { board, program } = openedSession;
  if (isList) print(listRequestableNames(board, boardTextOf(openedSession), program !== null).map((name) => `${name}\n`).join(""));
  else if (wav === undefined) await printVcd(openedSession, cycles, lines);
  else await writeWav(openedSession, cycles, lines[0], wav);
  return 0;
}
