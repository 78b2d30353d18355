// The printout: the characters that the program has sent to the front panel's printer.

import { block, button, element, onClick } from "../ui/dom.js";
import { findPrinter } from "../../core/board/face_board.js";
import { printoutLines } from "../../core/board/printout_lines.js";

/**
 * @typedef {import("../../core/bench/answers.js").Board} Board
 * @typedef {import("../../core/engine/printer_codes.js").PrintoutData} PrintoutData
 * @typedef {import("../../core/board/face.js").Face} Face
 * @typedef {import("../../core/board/face.js").Printer} Printer
 */

/**
 * The callbacks of the printer view.
 * @typedef {object} PrinterCalls
 * @property {(printer: { strobe: string, port: string } | null) => void} setPrinter Asks the bench to report the codes that the program
 *   sends to a printer. With null, the reports stop.
 * @property {() => void} clear Clears the bench's copy of the printout.
 */

/** The maximum number of lines that are shown. If the printout is longer, only its last lines are shown. */
const MAX_SHOWN_LINES = 400;
/** The distance in pixels from the end of the printout within which the view follows new lines. */
const MAX_END_DISTANCE = 24;

export class PrinterView {
  /** @param {PrinterCalls} calls */
  constructor(calls) {
    this.calls = calls;
    /** @type {Printer | null} */
    this.printer = null;
    /** @type {number[]} the codes that were sent to the printer */
    this.codes = [];
    /** @type {string[]} the lines that are shown */
    this.lines = [];
    this.root = block("strip");
    this.printoutBlock = block("paper");
    /** True if the view scrolls to new lines. */
    this.followsEnd = true;
    this.printoutBlock.addEventListener("scroll", () => this.handleScroll());
    // Lines can arrive while the printout is hidden, so scroll again when its size changes.
    new ResizeObserver(() => this.scrollToEnd()).observe(this.printoutBlock);
    onClick(button("clear-printout"), () => this.clear());
  }

  /**
   * Selects the printer of a new board or front panel, and shows its printout.
   * @param {Board} board
   * @param {Face} face
   */
  draw(board, face) {
    const { printer: oldPrinter } = this;
    this.printer = findPrinter(board, face);
    this.root.hidden = this.printer === null;
    if (!oldPrinter || !this.isCurrentPrinter(oldPrinter)) this.codes = [];
    this.calls.setPrinter(this.printer && { strobe: this.printer.strobe, port: this.printer.port });
    this.show();
  }

  /**
   * Draws a changed front panel of the same board. The printout stays if the board's text declares no front panel or no printer, because
   * the user may still be writing the comments that declare it.
   * @param {Board} board
   * @param {Face} face
   */
  changeFace(board, face) {
    if (face.comments !== "" && (!this.printer || findPrinter(board, face))) this.draw(board, face);
  }

  /**
   * Returns true if the current printer has this strobe line and port.
   * @param {{ strobe: string, port: string }} lines
   */
  isCurrentPrinter({ strobe, port }) {
    return this.printer !== null && this.printer.strobe === strobe && this.printer.port === port;
  }

  /**
   * Shows a printout, unless it was printed by a printer other than the current one.
   * @param {PrintoutData} printout
   */
  showPrintout(printout) {
    if (!this.isCurrentPrinter(printout)) return;
    this.codes = printout.codes.map(([, code]) => code);
    this.show();
  }

  /** Clears the printout at the user's request. */
  clear() {
    this.codes = [];
    this.show();
    this.calls.clear();
    this.printoutBlock.focus();
  }

  /** Shows the last MAX_SHOWN_LINES lines of the printout. Keeps the elements of all lines before the first changed line. */
  show() {
    const lines = this.printer ? printoutLines(this.codes, this.printer.words).slice(-MAX_SHOWN_LINES) : [];
    if (lines[lines.length - 1] === "") lines.pop();
    let unchangedCount = 0;
    while (unchangedCount < lines.length && lines[unchangedCount] === this.lines[unchangedCount]) unchangedCount += 1;
    if (unchangedCount === lines.length && unchangedCount === this.lines.length) return;
    const { printoutBlock } = this;
    while (printoutBlock.children.length > unchangedCount) printoutBlock.children[unchangedCount].remove();
    printoutBlock.append(...lines.slice(unchangedCount).map((line) => element("div", {}, line)));
    this.lines = lines;
    this.scrollToEnd();
  }

  handleScroll() {
    const { scrollHeight, scrollTop, clientHeight } = this.printoutBlock;
    this.followsEnd = scrollHeight - scrollTop - clientHeight <= MAX_END_DISTANCE;
  }

  scrollToEnd() {
    if (this.followsEnd) this.printoutBlock.scrollTop = this.printoutBlock.scrollHeight;
  }
}
