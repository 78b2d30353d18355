// The disassembly, with breakpoints. It shows the instructions around the program counter, or from an address that the user has chosen.

import { block, field } from "../ui/dom.js";
import { addLineNames, labelsWidth } from "../../core/machine/listing_names.js";
import { ListingReader } from "../../core/machine/listing_reader.js";
import { ListingRows } from "./listing_rows.js";
import { ListingScroll } from "./listing_scroll.js";
import { isInsideLine, visibleLines } from "../../core/machine/listing_range.js";
import { LAST_ADDRESS } from "../../core/bench/numbers.js";

/**
 * @typedef {import("../../core/bench/answers.js").ListingLine} ListingLine
 * @typedef {import("../../core/machine/listing_names.js").NamedLine} NamedLine
 * @typedef {import("../../core/machine/listing_range.js").ListingGoal} ListingGoal
 * @typedef {import("../../core/machine/source_map.js").SourceMap} SourceMap
 */

/** The assumed number of visible rows before the page has been laid out. */
const DEFAULT_ROWS = 18;
/** The number of bytes before the program counter that are shown, if there is room. */
const PRECEDING_BYTES = 10;
/**
 * The interval in milliseconds between moves of the disassembly to the program counter while time is running fast. Between two moves, the
 * user can read the lines.
 */
const FOLLOW_INTERVAL_MS = 300;

export class ListingView {
  /**
   * @param {(lines: string) => Promise<string[]>} ask resolves to the bench's answers to queries
   * @param {(address: number) => void} toggleBreakpoint
   * @param {() => void} requestUpdate called when the disassembly must read its lines again
   */
  constructor(ask, toggleBreakpoint, requestUpdate) {
    this.reader = new ListingReader(ask);
    this.requestUpdate = requestUpdate;
    this.block = block("lines-of-program");
    this.followsCounter = true;
    /**
     * The program counter at the moment when the user went to another address. As soon as the program counter differs from this value, the
     * disassembly follows it again. -1 if the disassembly does not wait for a change of the counter.
     */
    this.counterAtLeave = -1;
    /** The first address to show while the disassembly does not follow the program counter. */
    this.firstAddress = 0;
    this.counter = 0;
    /** @type {Map<string, import("../../core/machine/breakpoint_marks.js").BreakpointMark>} the breakpoint marks, by address */
    this.breakpoints = new Map();
    /** @type {ListingLine[]} */
    this.lines = [];
    /** @type {NamedLine[]} the lines with their names */
    this.namedLines = [];
    /** @type {SourceMap | null} the source map of the program in ROM; null if ROM does not match the source */
    this.map = null;
    /** The number of requests so far. Lines are discarded if they arrive after a later request. */
    this.requestCount = 0;
    /** True if time was running fast when the disassembly was last shown. */
    this.isFast = false;
    /** The time in milliseconds when the disassembly last followed the program counter. */
    this.lastFollowTime = 0;
    this.scroll = new ListingScroll(this.block, {
      handleResize: (rows) => this.resize(rows),
      showFrom: (address) => this.handleScroll(address),
      moveFocus: (rows) => this.moveFocus(rows),
      moveFocusToEnd: (end) => this.moveFocusToEnd(end),
    });
    this.rows = new ListingRows(this.scroll.rows, toggleBreakpoint);
    this.rows.resize(DEFAULT_ROWS);
    this.addListeners();
  }

  addListeners() {
    const followCheckBox = field("follow");
    followCheckBox.checked = this.followsCounter;
    followCheckBox.addEventListener("change", () => {
      this.followsCounter = followCheckBox.checked;
      this.counterAtLeave = -1;
      this.rereadLines();
    });
  }

  /** Reads the lines again, from the same address, or around the program counter if the disassembly follows it. */
  rereadLines() {
    if (!this.followsCounter && this.lines.length > 0) this.firstAddress = this.lines[0].address;
    this.discardLines();
    this.requestUpdate();
  }

  /** @param {number} rowCount the number of rows that fit */
  resize(rowCount) {
    if (rowCount === this.rows.count) return;
    this.rows.resize(rowCount);
    if (this.lines.length > 0) this.rereadLines();
  }

  /**
   * Sets the disassembly's first address and stops following the program counter.
   * @param {number} address
   */
  setFirstAddress(address) {
    this.firstAddress = address;
    this.followsCounter = field("follow").checked = false;
  }

  /**
   * Makes the next call of `show` begin at an address. If the disassembly followed the program counter, it follows again as soon as the
   * counter changes, unless time is running fast.
   * @param {number} address
   */
  goTo(address) {
    if (this.followsCounter && !this.isFast) this.counterAtLeave = this.counter;
    this.setFirstAddress(address);
    this.discardLines();
  }

  /** @param {SourceMap | null} map */
  showLabels(map) {
    this.map = map;
    this.block.style.setProperty("--label-width", `${labelsWidth(map)}ch`);
    this.setLines(this.lines);
  }

  /** Discards all lines, including those that are being read. `show` then reads them again. */
  discardLines() {
    this.setLines([]);
    this.requestCount += 1;
  }

  /** @param {ListingLine[]} lines */
  setLines(lines) {
    this.lines = lines;
    this.namedLines = lines.map((line) => addLineNames(line, this.map));
  }

  showRows() {
    this.rows.show(this.namedLines, this.counter, this.breakpoints);
  }

  /**
   * Shows the disassembly and marks the line of the program counter. Reads other lines if needed.
   * @param {boolean} isFast true if time is running too fast for the disassembly to follow each instruction
   */
  async show(isFast) {
    const { counter, firstAddress } = this;
    this.isFast = isFast;
    if (this.counterAtLeave >= 0 && counter !== this.counterAtLeave) {
      this.counterAtLeave = -1;
      this.followsCounter = field("follow").checked = true;
    }
    if (this.lines.length > 0 && !this.mustReadLines(isFast)) {
      this.showRows();
    } else if (this.followsCounter) {
      this.lastFollowTime = performance.now();
      const bytesBefore = Math.min(PRECEDING_BYTES, Math.floor(this.rows.count / 2));
      await this.read({ from: Math.max(0, counter - bytesBefore), anchor: counter });
    } else {
      await this.read({ from: firstAddress, anchor: firstAddress });
    }
  }

  /**
   * Returns true if the lines must be read again. If the disassembly follows the program counter, it reads new lines when the counter is
   * not visible, but at most once per FOLLOW_INTERVAL_MS while time is running fast. Otherwise, it reads new lines when the counter points
   * to the second byte of a line, but not while time is running fast.
   * @param {boolean} isFast
   */
  mustReadLines(isFast) {
    if (!this.followsCounter) return !isFast && isInsideLine(this.lines, this.counter);
    if (this.isCounterVisible(this.counter)) return false;
    return !isFast || performance.now() - this.lastFollowTime > FOLLOW_INTERVAL_MS;
  }

  /**
   * Returns true if the visible lines include the program counter's line, one line before it and three lines after it. At the start and the
   * end of ROM, fewer lines are enough.
   * @param {number} counter
   */
  isCounterVisible(counter) {
    const index = this.lines.findIndex((line) => line.address === counter);
    if (index < 0) return false;
    const isAtEnd = this.lines[this.lines.length - 1].address >= LAST_ADDRESS - 1;
    return (index >= 1 || counter === 0) && (index < this.lines.length - 3 || isAtEnd);
  }

  /**
   * Reads lines and shows them. Resolves to false if other lines were requested in the meantime.
   * @param {ListingGoal} goal
   * @param {boolean} isScrolled true if the user has scrolled to the lines; the scroll position then stays
   */
  async read(goal, isScrolled = false) {
    this.requestCount += 1;
    const { requestCount, counter } = this;
    const rowCount = this.rows.count;
    let lines = await this.reader.read(goal, rowCount);
    if (goal.anchor !== counter && isInsideLine(lines, counter)) lines = await this.reader.read({ ...goal, anchor: counter }, rowCount);
    if (requestCount !== this.requestCount) return false;
    this.setLines(visibleLines(lines, goal.from, rowCount));
    this.showRows();
    if (!isScrolled && this.lines.length > 0) this.scroll.scrollToAddress(this.lines[0].address);
    return true;
  }

  // --- moving through the disassembly ---

  /** @param {number} address */
  handleScroll(address) {
    this.setFirstAddress(Math.max(0, Math.min(address, LAST_ADDRESS)));
    // If the address is near the visible lines, read from the start of a visible instruction, so that instructions stay aligned.
    const nextLine = this.lines.find((line) => line.address >= this.firstAddress);
    const isNear = nextLine && Math.abs(this.lines[0].address - this.firstAddress) <= this.rows.count;
    this.read({ from: this.firstAddress, anchor: nextLine && isNear ? nextLine.address : null }, true);
  }

  /**
   * Moves the focus by a number of rows. Scrolls if the focus leaves the visible lines.
   * @param {number} rowCount
   */
  async moveFocus(rowCount) {
    const { focusedIndex } = this.rows;
    if (focusedIndex < 0 || this.lines.length === 0) return;
    const targetIndex = focusedIndex + rowCount;
    const lastIndex = this.lines.length - 1;
    if (targetIndex >= 0 && targetIndex <= lastIndex) {
      this.rows.focus(targetIndex);
      return;
    }
    if (await this.moveBy(targetIndex < 0 ? targetIndex : targetIndex - lastIndex)) this.focusRow(rowCount < 0 ? 0 : lastIndex);
  }

  /**
   * Moves the disassembly by a number of lines; a negative `count` moves up. Resolves to false if other lines were requested in the
   * meantime.
   * @param {number} count
   */
  async moveBy(count) {
    const [topLine] = this.lines;
    if (count > 0) {
      this.setFirstAddress(this.lines[Math.min(count, this.lines.length - 1)].address);
      return this.read({ from: this.firstAddress, anchor: this.firstAddress });
    }
    // A line has at most two bytes, so the new top line is not before this address.
    const from = Math.max(0, topLine.address + 2 * count);
    const precedingLines = await this.reader.read({ from, anchor: topLine.address }, this.rows.count);
    const index = precedingLines.findIndex((line) => line.address >= topLine.address);
    this.setFirstAddress((precedingLines[Math.max(0, index + count)] || topLine).address);
    return this.read({ from: this.firstAddress, anchor: topLine.address });
  }

  /** @param {"first" | "last"} end */
  async moveFocusToEnd(end) {
    this.setFirstAddress(end === "first" ? 0 : LAST_ADDRESS);
    if (await this.read({ from: this.firstAddress, anchor: null })) this.focusRow(end === "first" ? 0 : this.lines.length - 1);
  }

  /**
   * Focuses a row after the disassembly has moved. The focus moves to a different element, so that a screen reader announces the row.
   * @param {number} index the index of the row
   */
  focusRow(index) {
    this.rows.rotateRows();
    this.showRows();
    this.rows.focus(index);
  }
}
