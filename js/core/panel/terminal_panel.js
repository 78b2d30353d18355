// Controls a session from a panel in a terminal. The session runs as fast as a real 4004, or is paused. When the user types a character,
// the panel presses a key of the board. To run cycles and to press keys, the panel sends lines to the session. screen.js converts the state
// of the panel to rows of characters.

import { parseRefusal, readRun } from "../bench/answers.js";
import { joinLines } from "../bench/inputs.js";
import { hex } from "../bench/numbers.js";
import { findBoardKey, boardKeys } from "../board/board_keys.js";
import { findPrinter } from "../board/face_board.js";
import { isSameKey, keyLine } from "../board/key_place.js";
import { plannedCycles } from "../debug/goal_search.js";
import { linesWithQueries, splitAnswers } from "../engine/forecast_queries.js";
import { KeyQueue, MAX_RUN_CYCLES } from "../engine/key_queue.js";
import { PrinterCodes } from "../engine/printer_codes.js";
import { RealTime } from "../time/real_time.js";
import { PAUSE_REASONS } from "../../words/stops.js";
import { PanelSnapshot } from "./panel_snapshot.js";
import * as say from "../../words/panel.js";

/**
 * @typedef {import("../bench/answers.js").Board} Board
 * @typedef {import("../board/face.js").Face} Face
 * @typedef {import("../board/key_place.js").Key} Key
 * @typedef {import("../engine/key_queue.js").KeyChange} KeyChange
 * @typedef {import("../engine/key_queue.js").PlannedLine} PlannedLine
 * @typedef {import("../machine/source_map.js").SourceMap} SourceMap
 * @typedef {import("./terminal_keys.js").TypedKey} TypedKey
 *
 * A function that sends lines to the session and resolves to the answers. Rejects if the session has ended.
 * @typedef {(lines: string) => Promise<string[]>} Ask
 *
 * The source of the program in ROM: its source map, its lines, and the number of lines before these lines in the file (`linesBefore`).
 * @typedef {{ map: SourceMap, lines: string[], linesBefore: number }} PanelSource
 *
 * The session that the panel controls: its name, its board and front panel, and the source of its program (null if unknown).
 * `describeRefusal` returns the message for an error number of the bench. `isPaused` is true if time is paused at the start. `note` is the
 * message that the panel shows first.
 * @typedef {{ name: string, board: Board, face: Face, source: PanelSource | null, describeRefusal: (number: number) => string,
 *   isPaused: boolean, note: string }} PanelSubject
 */

/** The number of presses and releases in the key queue at which the panel starts to ignore typed keys. */
const MAX_QUEUED_CHANGES = 128;
/** The maximum number of cycles of an instruction. */
const MAX_INSTRUCTION_CYCLES = 2;

/** The panel: its state, and the actions of its keys. */
export class Panel {
  /**
   * @param {Ask} ask
   * @param {PanelSubject} subject
   * @param {number} now the current time in milliseconds
   */
  constructor(ask, subject, now) {
    this.ask = ask;
    this.subject = subject;
    const { board, face } = subject;
    this.keys = boardKeys(board, { keys: face.keys, test: null });
    this.queue = new KeyQueue();
    /** @type {Key[]} the keys that this panel has pressed and not yet released */
    this.heldKeys = [];
    this.time = new RealTime(now, now);
    this.isPaused = subject.isPaused;
    /** The reason for the pause as text; "" if the user paused time. */
    this.pauseReason = "";
    this.message = subject.note;
    /** The index of the first visible RAM chip. */
    this.firstChip = 0;
    this.isEnded = false;
    const printer = findPrinter(board, face);
    this.printerCodes = printer && new PrinterCodes({ ...printer, codes: [] });
    /** The number of cycles that this panel has run. */
    this.cycles = 0;
    this.snapshot = new PanelSnapshot(this);
  }

  /** Takes the first snapshot. Pauses time if the session is at a breakpoint. */
  async begin() {
    await this.snapshot.refresh(0);
    if (this.snapshot.isAtBreakpoint) this.pause(PAUSE_REASONS.break);
  }

  // --- lines ---

  /**
   * Sends a command and resolves to its answer. Shows a message if the bench rejects the command.
   * @param {string} line the command
   */
  async sendCommand(line) {
    const [answer] = await this.ask(joinLines([line]));
    this.reportRefusal(line, answer);
    return answer;
  }

  /**
   * Shows a message if the bench has rejected a line.
   * @param {string} line
   * @param {string} answer the answer to the line
   */
  reportRefusal(line, answer) {
    const refusal = parseRefusal(answer);
    if (refusal) this.message = say.rejectedMessage(line, answer, this.subject.describeRefusal(refusal.number));
  }

  // --- time ---

  /**
   * Pauses time.
   * @param {string} reason the reason for the pause as text; "" if the user paused time
   */
  pause(reason) {
    this.isPaused = true;
    this.pauseReason = reason;
  }

  /**
   * Resumes time.
   * @param {number} now the current time in milliseconds
   */
  resume(now) {
    this.isPaused = false;
    this.pauseReason = "";
    this.time.restart(now, now);
  }

  /**
   * Runs the cycles that a real 4004 would have run since the previous call, unless time is paused.
   * @param {number} now the current time in milliseconds
   */
  async keepRealTime(now) {
    if (!this.isPaused) await this.advance(this.time.takeDueCycles(now));
  }

  /**
   * Runs cycles, and presses and releases the queued keys when they are due. Ends early if a run pauses time, for example at a breakpoint.
   * @param {number} cycles
   */
  async advance(cycles) {
    for (let remaining = cycles; remaining > 0 && !this.isPaused;) remaining -= await this.runNextEvent(remaining);
  }

  /**
   * Executes the next event of the key queue: presses or releases a key, or runs up to the next press or release. Resolves to the number of
   * cycles run. If the bench rejects the run, this is the number of planned cycles.
   * @param {number} cycles the maximum number of cycles
   */
  async runNextEvent(cycles) {
    const [plannedLine] = this.queue.plan(cycles);
    let cyclesRun = 0;
    if (plannedLine.change) await this.changeKey(plannedLine.change);
    else cyclesRun = await this.runPlannedLine(plannedLine);
    this.queue.markExecuted([plannedLine], () => cyclesRun);
    return cyclesRun;
  }

  /**
   * Presses or releases a key.
   * @param {KeyChange} change
   */
  async changeKey(change) {
    const { word, key } = change;
    await this.sendCommand(keyLine(word, key));
    this.heldKeys = this.heldKeys.filter((heldKey) => !isSameKey(heldKey, key));
    if (word === "press") this.heldKeys.push(key);
  }

  /**
   * Sends a planned `run` line, and pauses time if the run stops early. Resolves to the number of cycles run. If the bench rejects the
   * line, pauses time and resolves to the number of planned cycles.
   * @param {PlannedLine} plannedLine
   */
  async runPlannedLine(plannedLine) {
    const querySources = this.printerCodes ? [this.printerCodes] : [];
    const allAnswers = await this.ask(linesWithQueries([plannedLine], querySources));
    const { answers: [answer], sourceAnswers } = splitAnswers([plannedLine], querySources, allAnswers);
    if (this.printerCodes) this.printerCodes.readCodes(sourceAnswers[0], this.cycles);
    const run = readRun(answer);
    this.cycles += run ? run.cycles : 0;
    this.reportRefusal(plannedLine.line, answer);
    if (!run || run.end !== "end") this.pause(run ? PAUSE_REASONS[run.end] : "");
    return run ? run.cycles : plannedCycles(plannedLine);
  }

  /** Pauses time and runs one instruction. */
  async step() {
    this.isPaused = true;
    this.pauseReason = "";
    if (this.printerCodes) this.printerCodes.readCodes([await this.ask(this.printerCodes.queries(MAX_INSTRUCTION_CYCLES))], this.cycles);
    const run = readRun(await this.sendCommand("step"));
    this.cycles += run ? run.cycles : 0;
    if (run && run.end !== "end") this.pauseReason = PAUSE_REASONS[run.end];
  }

  /** The codes that the printer has received. */
  get printout() {
    if (!this.printerCodes) return [];
    return this.printerCodes.codes.slice(0, this.printerCodes.countAt(this.cycles)).map(([, code]) => code);
  }

  // --- keys ---

  /**
   * Handles a key that the user has typed.
   * @param {TypedKey} key
   * @param {number} now the current time in milliseconds
   */
  async handleKey({ kind, text }, now) {
    this.message = "";
    const action = kind === "character" ? KEY_ACTIONS[text] : undefined;
    if (action) await action(this, now);
    else if (kind === "arrow") this.scrollRam(text === "right" ? 1 : -1);
    else if (kind === "character") await this.typeKey(text);
    else if (kind === "sequence") this.message = say.NOTHING_HERE;
  }

  /**
   * Scrolls the RAM chips on the screen.
   * @param {number} count the number of chips; a negative number scrolls back
   */
  scrollRam(count) {
    const last = this.snapshot.chips.length - 1;
    this.firstChip = Math.max(0, Math.min(last, this.firstChip + count));
  }

  /**
   * Handles a character for a key of the board. While time is running, queues a press and a release. While time is paused, presses or
   * releases the key at once.
   * @param {string} typedCharacter
   */
  async typeKey(typedCharacter) {
    const boardKey = findBoardKey(this.keys, typedCharacter);
    if (!boardKey) this.message = /\p{C}/u.test(typedCharacter) ? say.NOTHING_HERE : say.noKeyMessage(typedCharacter);
    else if (this.isPaused) await this.toggleKey(boardKey.key);
    else if (this.queue.changes.length < MAX_QUEUED_CHANGES) {
      this.queue.press(boardKey.key);
      this.queue.release(boardKey.key);
    }
  }

  /**
   * Presses a released key, or releases a pressed key.
   * @param {Key} key
   */
  async toggleKey(key) {
    this.queue.forget(key);
    await this.changeKey({ key, word: this.snapshot.isDown(key) ? "release" : "press" });
  }

  /** Sets a breakpoint at the program counter, or deletes the existing one. */
  async toggleBreakpoint() {
    const { counter } = this.snapshot;
    await this.sendCommand(`${this.snapshot.isAtBreakpoint ? "unbreak" : "break"} 0x${hex(counter, 3)}`);
  }

  /** Ends the panel. If time is running, first completes the queued key presses. Releases the keys that the panel has pressed. */
  async end() {
    while (!this.isPaused && this.queue.changes.length > 0) await this.runNextEvent(MAX_RUN_CYCLES);
    for (const key of this.heldKeys) await this.sendCommand(keyLine("release", key));
    this.isEnded = true;
  }
}

/** @type {(panel: Panel) => Promise<void>} the action of Enter */
const step = (panel) => panel.step();
/** @type {(panel: Panel) => Promise<void>} the action of Ctrl-C and Ctrl-D */
const end = (panel) => panel.end();

/**
 * The actions of the keys that control the panel: Space, Enter, Tab, Ctrl-T, Ctrl-R, Ctrl-C and Ctrl-D.
 * @type {Record<string, (panel: Panel, now: number) => Promise<unknown> | void>}
 */
const KEY_ACTIONS = {
  " ": (panel, now) => (panel.isPaused ? panel.resume(now) : panel.pause("")),
  "\r": step,
  "\n": step,
  "\t": (panel) => panel.toggleBreakpoint(),
  "\u0014": (panel) => panel.sendCommand(`test ${panel.snapshot.test === "0" ? 1 : 0}`),
  "\u0012": (panel) => panel.sendCommand("reset"),
  "\u0003": end,
  "\u0004": end,
};
