// `mcs4 panel`: the board's front panel in a terminal, with live keys. The native program records every command in the session's file.
import { basename } from "node:path";
import { parseRomCodes } from "../../core/engine/rom_codes.js";
import { listQueries, PAGE_NUMBERS } from "../../core/bench/rom_bytes.js";
import { findDifferingLines } from "../../core/bench/script_progress.js";
import { missingPartErrors } from "../../core/board/face_board.js";
import { sortByLine } from "../../core/board/face.js";
import { Panel } from "../../core/panel/terminal_panel.js";
import { Screen, fitsPanel, countMiddleRows } from "../../core/panel/screen.js";
import { boardDiffers } from "../../words/commands.js";
import { boardErrorLine } from "../../words/panel.js";
import { checkArguments, findProject } from "../arguments.mjs";
import { readBoardAndFace } from "../board_file.mjs";
import { InputTexts, MAX_TEXT_BYTES } from "../input_texts.mjs";
import { endEngine, endOnSignals, readCheckedMap, findProgramPath, startEngine } from "../native_program.mjs";
import { CommandError } from "../output.mjs";
import { PanelTerminal } from "../panel_terminal.mjs";
import { describeRefusal } from "../rejected_texts.mjs";
import { openProgram } from "../session_process.mjs";

/**
 * @typedef {import("../input_texts.mjs").InputText} InputText
 * @typedef {import("../session_process.mjs").SessionProcess} SessionProcess
 */

const FAILED_STATUS = 1;
/** The interval between two frames in milliseconds. */
const FRAME_INTERVAL = 100;

/**
 * Resolves to the file names of board, session and program, from the arguments or from the project.
 * @param {import("./table.mjs").Values} values
 * @param {string[]} words
 */
async function resolveNames({ folder, source }, words) {
  const project = await findProject(folder, words, 2);
  if (project) {
    checkArguments(words, ["SESSION"]);
    return { board: project.board, session: words[0], program: source ?? project.program };
  }
  checkArguments(words, ["BOARD", "SESSION"], 2, true);
  return { board: words[0], session: words[1], program: source };
}

/**
 * Executes lines in a session. Resolves to the answer lines.
 * @param {SessionProcess} session
 * @param {string} lines
 */
async function readAnswers(session, lines) {
  /** @type {string[]} */
  const answers = [];
  await session.serve(lines, (line) => answers.push(line));
  return answers;
}

/**
 * Reads the board and the program. Throws an error if the board differs from the session's board, or the program from the contents of the session's
 * ROM. Resolves to the board, its front panel and the source; the source is null if there is no program.
 * @param {SessionProcess} session
 * @param {string} name the session's file name
 * @param {{ board: InputText, program: InputText | null }} texts
 */
async function readTexts(session, name, texts) {
  const engine = await startEngine();
  const { board, face, answers } = await readBoardAndFace(engine, texts.board);
  const boardDifferences = findDifferingLines(await readAnswers(session, "board\n"), answers);
  const { name: boardName } = texts.board;
  if (boardDifferences.length > 0) throw new CommandError([`${boardDiffers(boardName)} (< ${name}, > ${boardName})`, ...boardDifferences].join("\n"));
  const { program } = texts;
  const map = program && await readCheckedMap(engine, parseRomCodes(await readAnswers(session, listQueries(PAGE_NUMBERS))), program);
  endEngine();
  return { board, face, source: map && { map, lines: program.text.split("\n"), linesBefore: program.linesBefore } };
}

/**
 * Returns a message about the first front-panel line that has an error or names a part that the board does not have; "" if there is no such line.
 * @param {Awaited<ReturnType<typeof readTexts>>} panelTexts
 * @param {number} linesBefore the number of lines before the board's text in its file
 */
function findMissingPartNote({ board, face }, linesBefore) {
  const [note] = sortByLine([...face.errors, ...missingPartErrors(face, board)]);
  return note ? boardErrorLine(note.line + linesBefore, note.message) : "";
}

/**
 * Draws a frame.
 * @param {PanelTerminal} terminal
 * @param {Panel} panel
 * @param {Screen} screen
 */
async function drawFrame(terminal, panel, screen) {
  const { size } = terminal;
  await panel.snapshot.refresh(fitsPanel(size) ? countMiddleRows(size) : 0);
  if (fitsPanel(terminal.size) && terminal.size.rows === size.rows) terminal.draw(screen.buildRows(terminal.size));
  else if (!fitsPanel(terminal.size)) terminal.drawTooSmall();
}

/**
 * Handles typed keys until the next frame is due. While the session is paused, a frame is due after each key.
 * @param {PanelTerminal} terminal
 * @param {Panel} panel
 * @param {number} nextFrameTime the time of the next frame, in milliseconds
 */
async function handleKeys(terminal, panel, nextFrameTime) {
  for (let isFrameDue = false; !isFrameDue && !panel.isEnded && !terminal.isGone;) {
    const key = terminal.keys.shift();
    if (key) await panel.handleKey(key, performance.now());
    else if (performance.now() < nextFrameTime && terminal.drawnRows.length > 0) await terminal.wait(nextFrameTime - performance.now());
    isFrameDue = key ? panel.isPaused : performance.now() >= nextFrameTime || terminal.drawnRows.length === 0;
  }
}

/**
 * Shows the panel until it ends. Resolves to the exit status.
 * @param {PanelTerminal} terminal
 * @param {Panel} panel
 */
async function runPanel(terminal, panel) {
  const screen = new Screen(panel);
  terminal.begin(() => panel.snapshot.forgetListing());
  await panel.begin();
  for (let nextFrameTime = performance.now(); !panel.isEnded && !terminal.isGone;) {
    await panel.keepRealTime(performance.now());
    await drawFrame(terminal, panel, screen);
    nextFrameTime = Math.max(nextFrameTime + FRAME_INTERVAL, performance.now());
    await handleKeys(terminal, panel, nextFrameTime);
  }
  return terminal.isGone ? FAILED_STATUS : 0;
}

/** @type {import("./table.mjs").CommandModule["run"]} */
export async function run(values, words) {
  const names = await resolveNames(values, words);
  const texts = new InputTexts();
  const board = texts.readText(names.board, "wire");
  const program = names.program === undefined ? null : texts.readText(names.program, "asm");
  texts.read(names.session, MAX_TEXT_BYTES);
  // If there is no native program, fail before the terminal changes.
  findProgramPath();
  const terminal = new PanelTerminal();
  const session = await openProgram("open", names.session);
  try {
    const panelTexts = await readTexts(session, names.session, { board, program });
    endOnSignals(() => {
      terminal.leave();
      session.close();
    });
    const panel = new Panel((lines) => readAnswers(session, lines), {
      ...panelTexts, name: basename(names.session), describeRefusal, isPaused: values.stopped === true,
      note: findMissingPartNote(panelTexts, board.linesBefore),
    }, performance.now());
    return await runPanel(terminal, panel);
  } catch (error) {
    if (terminal.isGone) return FAILED_STATUS;
    throw error;
  } finally {
    terminal.end();
    await session.end();
    terminal.hangUp();
  }
}
