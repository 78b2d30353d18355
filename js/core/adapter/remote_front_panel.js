// Reports the front panel of a board to an editor that draws this front panel (editors/vscode/board_view.js). Reports the board and its
// text when the board changes, and lamps, keys, TEST and printer output when they change. Also presses and releases the keys that the user
// clicks in the drawing.

import { readBoard } from "../bench/answers.js";
import { SnapshotReader } from "../bench/snapshot.js";
import { Face } from "../board/face.js";
import { findPrinter } from "../board/face_board.js";
import { parseKey, keyLine } from "../board/key_place.js";
import { PrinterCodes } from "../engine/printer_codes.js";
import { LAMPS_FORECAST_QUERY } from "../engine/perceived_text.js";
import { BrightnessMeter } from "../engine/brightness_meter.js";
import { fail } from "./dap_protocol.js";
import * as say from "../../words/adapter.js";

/**
 * @typedef {import("./console.js").Console} Console
 * @typedef {import("./debugged_machine.js").Machine} Machine
 *
 * The changes since the last report:
 * - `board`: the answer to `board`; `boardText`: the board text;
 * - `lamps`: a mark for each lamp, `*` if it is on;
 * - `keys`: the pressed keys as `row.column`; `test`: the TEST level;
 * - `isRunning`: true if the machine runs;
 * - `litShares`: while the machine runs, the lamp measurements of the next 30 ms;
 * - `printed`: the complete printout, if the printer has printed since the last report.
 * @typedef {{ board?: string[], boardText?: string, lamps?: string, keys?: string[], test?: string, isRunning?: boolean,
 *   litShares?: import("../engine/brightness_meter.js").LitShares,
 *   printed?: import("../engine/printer_codes.js").PrintoutData }} FrontPanelUpdate
 */

export class RemoteFrontPanel {
  /** @param {Machine} machine */
  constructor(machine) {
    this.machine = machine;
    this.reader = new SnapshotReader();
    this.board = "";
    /** @type {boolean | null} the last reported `isRunning`; null before the first report */
    this.isRunning = null;
    this.face = new Face("");
    this.lampCount = 0;
    /** The last reported `litShares` as JSON, "" while the machine is paused. */
    this.litShares = "";
  }

  /**
   * Returns the changes since the last report. The first report contains all values.
   * @returns {FrontPanelUpdate}
   */
  takeChanges() {
    const { session, isMoving } = this.machine;
    const { session: bench } = session.debugger;
    /** @type {FrontPanelUpdate} */
    const update = {};
    const board = bench.statusQueries.board.join("\n");
    if (board !== this.board) {
      this.board = board;
      this.reader.forget();
      this.face = new Face(session.boardText);
      const boardParts = readBoard(bench.statusQueries.board);
      this.lampCount = boardParts.lamps.length;
      const printer = findPrinter(boardParts, this.face);
      if (!printer) bench.printerCodes = null;
      else if (!bench.printerCodes || !bench.printerCodes.isSamePrinter(printer)) {
        bench.printerCodes = new PrinterCodes({ ...printer, codes: [] });
      }
      Object.assign(update, { board: bench.statusQueries.board, boardText: session.boardText });
    }
    Object.assign(update, this.reader.readSnapshot(bench.ask("state\n")));
    const newCodes = bench.printerCodes && bench.printerCodes.takeChanges(bench.count.total);
    if (newCodes) update.printed = newCodes;
    if (isMoving !== this.isRunning) update.isRunning = isMoving;
    this.isRunning = isMoving;
    return { ...update, ...this.takeLitShares() };
  }

  /** Clears the printout. */
  clear() {
    const { printerCodes } = this.machine.session.debugger.session;
    if (printerCodes) printerCodes.clear();
  }

  /** Returns `litShares` if the machine runs and the shares have changed; otherwise an empty object. */
  takeLitShares() {
    const { machine, face, lampCount, litShares: lastShares } = this;
    this.litShares = "";
    if (!machine.isMoving || lampCount === 0) return {};
    const litShares = new BrightnessMeter(face, lampCount, 0).take([machine.session.debugger.session.ask(LAMPS_FORECAST_QUERY)]);
    this.litShares = JSON.stringify(litShares);
    return this.litShares === lastShares ? {} : { litShares };
  }
}

/**
 * Presses or releases a key: at once while the machine is paused, otherwise through the key queue. Throws AdapterError if the text is not a
 * key.
 * @param {Machine} machine
 * @param {Console} debugConsole
 * @param {string} text the key: `0 2` (row and column) or `test 0`
 * @param {boolean} isDown
 */
export async function changeKey(machine, debugConsole, text, isDown) {
  const key = parseKey(text) || fail(say.KEY_PLACE_SYNTAX);
  const word = isDown ? "press" : "release";
  if (machine.isMoving) machine.session.debugger.session.queue[word](key);
  else await debugConsole.runBenchLines(`${keyLine(word, key)}\n`);
}
