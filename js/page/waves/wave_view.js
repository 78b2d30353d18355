// The view of the waves: the canvas, the cursors, and the values at the cursors as text.

import { Cell, block, button, byId, field, onClick, makePressedSwitch } from "../ui/dom.js";
import { AXIS_HEIGHT, ROW_HEIGHT, drawWaves } from "./wave_canvas.js";
import { measureAt, describeMeasurement } from "../../core/waves/measurement.js";
import { RowMenu } from "./row_menu.js";
import { WavePointers } from "./wave_pointers.js";
import { ROW_COLOURS, WaveRows } from "../../core/waves/wave_rows.js";
import { WaveValues } from "./wave_values.js";
import { WaveWindow } from "../../core/waves/wave_window.js";
import { describeDistance, describeCursor, describeForScreenReader } from "../../core/waves/wave_words.js";
import * as say from "../../words/waves.js";

/**
 * @typedef {import("./wave_canvas.js").Colours} Colours
 * @typedef {import("./wave_canvas.js").Picture} Picture
 * @typedef {import("./wave_pointers.js").Point} Point
 * @typedef {import("../../core/waves/wave_rows.js").StoredRows} StoredRows
 * @typedef {import("../../core/waves/wave_rows.js").RowColour} RowColour
 * @typedef {import("../../core/waves/wave_rows.js").WaveRow} WaveRow
 * @typedef {import("../../core/waves/wave_words.js").NumberBase} NumberBase
 * @typedef {import("../../core/waves/wave_recording.js").Waves} Waves
 */

/**
 * The callbacks of the wave view.
 * @typedef {object} WaveViewCalls
 * @property {(address: number) => void} goTo Shows an address in the source and in the disassembly.
 * @property {(name: string) => void} hide Hides a line by its name.
 * @property {(rows: StoredRows) => void} storeRows Stores the arrangement of the rows.
 */

/** The zoom factor of one click or key press. */
const ZOOM_FACTOR = 2;
/** The width in pixels of the gutter with the line names. */
const GUTTER_WIDTH = 150;
/** The width in pixels of the gutter in a narrow view. */
const NARROW_GUTTER_WIDTH = 112;
/** The width in pixels below which a view is narrow. */
const MIN_WIDE_WIDTH = 600;
/** The maximum number of rows that the canvas shows without scrolling. */
const MAX_ROWS = 20;

/** The CSS property that defines each colour. */
const COLOUR_PROPERTIES = {
  ink: "--wave-ink", faint: "--wave-faint", grid: "--wave-grid", sheet: "--wave-sheet", chosen: "--wave-chosen", first: "--wave-first",
  second: "--wave-second", measured: "--wave-measured",
  ...Object.fromEntries(ROW_COLOURS.map((colour) => [colour, `--wave-${colour}`])),
};
/** The distance in pixels between the pointer and the text of the measurement. */
const MEASURE_DISTANCE = 12;

export class WaveView {
  /** @param {WaveViewCalls} calls */
  constructor(calls) {
    this.calls = calls;
    this.canvas = byId("wave-canvas", HTMLCanvasElement);
    this.scroll = block("wave-scroll");
    this.spacer = block("wave-room");
    /** @type {Waves | null} */
    this.waves = null;
    /** @type {number[]} the indices of the lines to show, in board order */
    this.chosenLines = [];
    this.arrangement = new WaveRows();
    /** @type {WaveRow[]} */
    this.rows = [];
    /** @type {WaveRow | null} the row whose name the user is dragging; null if there is none */
    this.draggedRow = null;
    /** @type {Point | null} the position of the hovering pointer; null if it has left or is pressed */
    this.pointer = null;
    this.measurementBlock = block("wave-measure");
    this.measurementCell = new Cell(this.measurementBlock);
    this.menu = new RowMenu(this);
    /** The index of the selected row, or -1 if there is none. The buttons for the next and previous edge search this row. */
    this.selectedIndex = -1;
    this.view = new WaveWindow(0);
    /** True if a drawing has been requested for the next animation frame. */
    this.isDrawingRequested = false;
    /** @type {NumberBase} the number base in which values are shown */
    this.base = "hex";
    /** The moment of the trigger, or -1 if there is none. */
    this.trigger = -1;
    this.statusCells = ["wave-first", "wave-second", "wave-between"].map((id) => new Cell(block(id)));
    this.cursorSwitches = [makePressedSwitch(button("cursor-a")), makePressedSwitch(button("cursor-b"))];
    this.values = new WaveValues(() => this.requestDrawing());
    this.addListeners();
    this.listenToButtons();
  }

  addListeners() {
    this.canvas.addEventListener("keydown", (event) => this.handleKey(event));
    this.canvas.addEventListener("focus", () => this.requestDrawing());
    this.canvas.addEventListener("contextmenu", (event) => this.openMenu(event));
    this.scroll.addEventListener("scroll", () => this.requestDrawing());
    new ResizeObserver(() => this.requestDrawing()).observe(this.scroll);
    for (const query of ["(prefers-color-scheme: dark)", "(forced-colors: active)"]) {
      matchMedia(query).addEventListener("change", () => this.requestDrawing());
    }
    new WavePointers(this.canvas, {
      click: (point, isOtherCursor) => this.click(point, isOtherCursor),
      holdsCursor: ({ x, y }) => y < AXIS_HEIGHT && x >= this.gutter,
      drag: ({ x }) => this.moveCursor(this.view.timeAt(x - this.gutter)),
      isOnRowName: ({ x, y }) => y >= AXIS_HEIGHT && x < this.gutter,
      dragRow: (from, to) => this.dragRow(from, to),
      hover: (point) => this.hover(point),
      pan: (pixels) => this.changeView(() => this.view.scrollTo(this.view.from + (pixels / this.view.width) * this.view.span)),
      zoom: (factor, x) => this.changeView(() => this.view.zoom(factor, this.view.timeAt(x - this.gutter))),
    });
  }

  listenToButtons() {
    onClick(button("zoom-in"), () => this.zoom(ZOOM_FACTOR));
    onClick(button("zoom-out"), () => this.zoom(1 / ZOOM_FACTOR));
    onClick(button("zoom-all"), () => this.changeView(() => this.view.showAll()));
    onClick(button("edge-before"), () => this.moveToEdge(false));
    onClick(button("edge-after"), () => this.moveToEdge(true));
    onClick(button("wave-go-to"), () => this.showInstructionAtCursor());
    onClick(button("cursor-a"), () => this.activateCursor(0));
    onClick(button("cursor-b"), () => this.activateCursor(1));
  }

  get gutter() {
    return this.scroll.clientWidth < MIN_WIDE_WIDTH ? NARROW_GUTTER_WIDTH : GUTTER_WIDTH;
  }

  /** The index of the selected row's line, or -1 if there is none. */
  get selectedLine() {
    return this.selectedIndex < 0 ? -1 : this.rows[this.selectedIndex].line;
  }

  /** The names of the chosen lines, in row order. Includes the lines of folded groups. */
  get sortedNames() {
    const { waves, arrangement, chosenLines } = this;
    return waves ? arrangement.sortNames(chosenLines.map((line) => waves.lines[line].name)) : [];
  }

  /** The indices of the chosen lines, in row order. Includes the lines of folded groups. */
  get sortedLines() {
    const { waves, sortedNames, chosenLines } = this;
    const linesByName = new Map(waves ? chosenLines.map((line) => [waves.lines[line].name, line]) : []);
    return sortedNames.map((name) => linesByName.get(name) || 0);
  }

  /** @param {Waves} waves the recording to show */
  setRecording(waves) {
    this.waves = waves;
    this.trigger = -1;
    this.view = new WaveWindow(waves.cycles, waves.from);
    this.setBase(this.base);
  }

  /**
   * Shows a recording after parts were added at its end or removed at its beginning.
   * @param {number} trigger the moment of the trigger, or -1 if there is none
   */
  handleGrowth(trigger) {
    if (!this.waves) return;
    this.trigger = trigger;
    this.view.extendRange(this.waves.from, this.waves.cycles);
    this.requestDrawing();
  }

  /**
   * Shows the complete recording, unless the user has zoomed in or scrolled away from the end. Unless the user has moved a cursor, puts the
   * cursors on the first two edges of the first row that has edges. A cursor without an edge goes to the beginning.
   */
  fit() {
    const { waves, view, rows } = this;
    const row = rows.find(({ line }) => waves !== null && line >= 0 && waves.changesOf(line).length > 0);
    const cursorMoments = [...(waves && row ? waves.changesOf(row.line).slice(0, 2) : []), view.begin, view.begin];
    view.placeCursors(cursorMoments[0], cursorMoments[1]);
    this.changeView(() => view.showAllIfUnzoomed());
  }

  /**
   * Shows a moment and the cycles around it.
   * @param {number} moment
   */
  showAround(moment) {
    this.changeView(() => this.view.showAround(moment));
  }

  /** @param {NumberBase} base the number base in which values are shown */
  setBase(base) {
    this.base = base;
    if (this.waves) this.waves.base = base;
    this.requestDrawing();
  }

  /** @param {number[]} lines the indices of the lines to show, in board order */
  setChosenLines(lines) {
    this.chosenLines = lines;
    this.arrange(this.rows[this.selectedIndex]);
  }

  /**
   * Arranges the rows again after they have changed or moved.
   * @param {WaveRow | undefined} selectedRow the row to select; if it is no longer shown, the first row is selected
   */
  arrange(selectedRow) {
    const { waves } = this;
    this.rows = waves ? this.arrangement.arrange(waves.lines, this.chosenLines) : [];
    const { length } = this.rows;
    this.selectedIndex = Math.max(selectedRow ? this.indexOfRow(selectedRow) : -1, length > 0 ? 0 : -1);
    this.spacer.style.setProperty("height", `${AXIS_HEIGHT + length * ROW_HEIGHT}px`);
    this.scroll.style.setProperty("height", `${AXIS_HEIGHT + Math.max(1, Math.min(MAX_ROWS, length)) * ROW_HEIGHT}px`);
    if (waves) this.values.draw(waves, this.rows.filter(({ line }) => line >= 0));
    this.requestDrawing();
  }

  /**
   * Returns the current index of a row, or -1 if the row is no longer shown. The row can be from an earlier arrangement.
   * @param {WaveRow} row
   */
  indexOfRow({ line, group }) {
    return this.rows.findIndex((row) => row.line === line && (line >= 0 || row.group === group));
  }

  /** @param {Point} point */
  rowIndexAt({ y }) {
    return y < AXIS_HEIGHT ? -1 : Math.floor((y - AXIS_HEIGHT + this.scroll.scrollTop) / ROW_HEIGHT);
  }

  // --- the arrangement of rows ---

  /** @param {StoredRows | undefined} storedRows the stored arrangement of a session */
  open(storedRows) {
    this.arrangement = new WaveRows(storedRows);
    this.arrange(undefined);
  }

  /**
   * Changes the arrangement of the rows and stores it.
   * @param {() => void} action
   */
  rearrange(action) {
    const selectedRow = this.rows[this.selectedIndex];
    action();
    this.arrange(selectedRow);
    this.calls.storeRows(this.arrangement.storedRows);
  }

  /**
   * @param {number} index
   * @param {number} newIndex
   */
  moveRow(index, newIndex) {
    const { sortedNames, rows } = this;
    if (!rows[index] || !rows[newIndex]) return;
    this.selectRow(index);
    this.rearrange(() => this.arrangement.move(rows, sortedNames, index, newIndex));
    this.selectRow(this.selectedIndex);
  }

  /**
   * @param {Point} from
   * @param {Point} to
   */
  dragRow(from, to) {
    this.draggedRow = this.draggedRow || this.rows[this.rowIndexAt(from)] || null;
    const index = this.draggedRow ? this.indexOfRow(this.draggedRow) : -1;
    if (index >= 0 && this.rowIndexAt(to) !== index) this.moveRow(index, this.rowIndexAt(to));
  }

  /**
   * Changes the title, the colour or the group of lines.
   * @param {string[]} names the names of the lines
   * @param {import("../../core/waves/wave_rows.js").RowAppearance} appearance
   */
  changeAppearance(names, appearance) {
    this.rearrange(() => names.forEach((name) => this.arrangement.changeAppearance(name, appearance)));
  }

  /**
   * Folds or unfolds a group.
   * @param {string} group
   */
  toggleFold(group) {
    this.rearrange(() => this.arrangement.toggleFold(group));
  }

  /**
   * Opens the context menu of the row under the pointer, or of the selected row if the user pressed the menu key.
   * @param {MouseEvent} event
   */
  openMenu(event) {
    event.preventDefault();
    const { left, top } = this.canvas.getBoundingClientRect();
    const index = this.rowIndexAt({ x: event.clientX - left, y: event.clientY - top });
    const isPointerEvent = event.button === 2 || event.ctrlKey || (event instanceof PointerEvent && event.pointerType === "touch");
    if (this.rows[index] && isPointerEvent) this.selectRow(index);
    const row = this.rows[this.selectedIndex];
    const y = top + AXIS_HEIGHT + this.selectedIndex * ROW_HEIGHT - this.scroll.scrollTop;
    if (row) this.menu.open(row, { left: Math.max(left, event.clientX), bottom: event.clientY > top ? event.clientY : y });
  }

  // --- measurements ---

  /** @param {Point | null} point the pointer's position; null if the pointer is pressed or has left */
  hover(point) {
    this.pointer = point;
    if (!point) this.draggedRow = null;
    this.requestDrawing();
  }

  /**
   * Shows the measurement at the pointer as text beside the pointer. Returns the range to underline, or null if there is no measurement.
   * @param {Waves} waves
   * @returns {import("./wave_canvas.js").RowRange | null}
   */
  showMeasurement(waves) {
    const { pointer, gutter, view } = this;
    const row = pointer ? this.rowIndexAt(pointer) : -1;
    const { line = -1 } = this.rows[row] || {};
    const isOnWave = pointer !== null && pointer.x >= gutter && line >= 0;
    if (this.measurementBlock.hidden === isOnWave) this.measurementBlock.hidden = !isOnWave;
    if (!pointer || !isOnWave) return null;
    const moment = Math.min(Math.max(Math.floor(view.timeAt(pointer.x - gutter)), waves.from), waves.cycles);
    const measurement = measureAt(waves, line, moment);
    this.measurementCell.set(describeMeasurement(waves.valueAt(line, moment), measurement));
    const { offsetWidth, style } = this.measurementBlock;
    const box = this.canvas.getBoundingClientRect();
    style.setProperty("left", `${Math.max(0, Math.min(box.left + pointer.x + MEASURE_DISTANCE, box.right - offsetWidth))}px`);
    style.setProperty("top", `${box.top + pointer.y + MEASURE_DISTANCE}px`);
    return { row, from: measurement.from, to: measurement.to };
  }

  // --- user actions ---

  /** @param {() => void} action changes the visible range of cycles, or moves a cursor */
  changeView(action) {
    action();
    this.requestDrawing();
  }

  /** @param {number} moment */
  moveCursor(moment) {
    this.changeView(() => this.view.move(moment));
  }

  /** @param {number} cursor 0 for cursor A, 1 for cursor B */
  activateCursor(cursor) {
    this.changeView(() => {
      this.view.activeCursor = cursor;
      this.view.move(this.view.moment);
    });
  }

  /**
   * Zooms around the active cursor if it is visible, otherwise around the middle of the view.
   * @param {number} factor
   */
  zoom(factor) {
    const { view } = this;
    const isVisible = view.moment >= view.from && view.moment <= view.to;
    this.changeView(() => view.zoom(factor, isVisible ? view.moment : view.from + view.span / 2));
  }

  /**
   * Moves the active cursor to the next or previous edge of the selected row.
   * @param {boolean} isForward
   */
  moveToEdge(isForward) {
    if (!this.waves || this.selectedLine < 0) return;
    const { moment } = this.view;
    const edge = isForward ? this.waves.changeAfter(this.selectedLine, moment) : this.waves.changeBefore(this.selectedLine, moment);
    if (edge !== undefined) this.moveCursor(edge);
  }

  /** Shows the instruction at the active cursor in the source and the disassembly. */
  showInstructionAtCursor() {
    if (this.waves) this.calls.goTo(this.waves.counterAt(this.view.moment));
  }

  /** Handles Enter: folds or unfolds the selected group, or shows the instruction at the active cursor. */
  handleEnter() {
    const row = this.rows[this.selectedIndex];
    if (row && row.line < 0) this.toggleFold(row.group);
    else this.showInstructionAtCursor();
  }

  /**
   * Selects the row of a line if it is visible.
   * @param {number} line
   */
  selectRowOfLine(line) {
    const row = this.rows.findIndex((candidate) => candidate.line === line);
    if (row >= 0) this.selectRow(row);
  }

  /** @param {number} row */
  selectRow(row) {
    this.selectedIndex = Math.min(Math.max(row, 0), this.rows.length - 1);
    const top = this.selectedIndex * ROW_HEIGHT;
    const visibleHeight = this.scroll.clientHeight - AXIS_HEIGHT;
    if (top < this.scroll.scrollTop) this.scroll.scrollTop = top;
    else if (top + ROW_HEIGHT > this.scroll.scrollTop + visibleHeight) this.scroll.scrollTop = top + ROW_HEIGHT - visibleHeight;
    this.requestDrawing();
  }

  /**
   * @param {Point} point
   * @param {boolean} isOtherCursor
   */
  click({ x, y }, isOtherCursor) {
    if (!this.waves) return;
    const row = this.rowIndexAt({ x, y });
    if (this.rows[row]) this.selectRow(row);
    if (this.rows[row] && this.rows[row].line < 0) this.toggleFold(this.rows[row].group);
    if (x < this.gutter) return;
    if (isOtherCursor) this.view.activeCursor = 1 - this.view.activeCursor;
    this.moveCursor(this.view.momentAt(x - this.gutter, this.waves, y >= AXIS_HEIGHT ? this.selectedLine : -1));
  }

  /** @param {KeyboardEvent} event */
  handleKey(event) {
    if (event.ctrlKey || event.metaKey || !this.waves) return;
    const { view } = this;
    const stepSize = event.shiftKey ? 10 : 1;
    const direction = { ArrowUp: -1, ArrowDown: 1 }[event.key];
    if (event.altKey && direction !== undefined) {
      event.preventDefault();
      this.moveRow(this.selectedIndex, this.selectedIndex + direction);
    }
    if (event.altKey) return;
    /** @type {Record<string, (() => void) | undefined>} */
    const actions = {
      ArrowLeft: () => this.moveCursor(view.moment - stepSize), ArrowRight: () => this.moveCursor(view.moment + stepSize),
      ArrowUp: () => this.selectRow(this.selectedIndex - 1), ArrowDown: () => this.selectRow(this.selectedIndex + 1),
      PageUp: () => this.moveCursor(view.moment - view.span / 2), PageDown: () => this.moveCursor(view.moment + view.span / 2),
      Home: () => this.moveCursor(view.begin), End: () => this.moveCursor(view.end),
      "+": () => this.zoom(ZOOM_FACTOR), "-": () => this.zoom(1 / ZOOM_FACTOR), 0: () => this.changeView(() => view.showAll()),
      Enter: () => this.handleEnter(),
      "/": () => field("wave-search").focus(),
      p: () => this.moveToEdge(false), n: () => this.moveToEdge(true), a: () => this.activateCursor(0), b: () => this.activateCursor(1),
    };
    const action = actions[event.key] || actions[event.key.toLowerCase()];
    // Keys that are pressed on the canvas must not press the board's keys.
    if (event.key.length === 1 || action) event.stopPropagation();
    if (!action) return;
    event.preventDefault();
    action();
  }

  // --- drawing ---

  /** Requests that the waves be drawn at the next animation frame. */
  requestDrawing() {
    if (this.isDrawingRequested || !this.waves) return;
    this.isDrawingRequested = true;
    requestAnimationFrame(() => {
      this.isDrawingRequested = false;
      this.show();
    });
  }

  show() {
    const { waves, view } = this;
    if (!waves || this.scroll.clientWidth === 0) return;
    this.draw(waves, this.showMeasurement(waves));
    this.statusCells[0].set(describeCursor("A", view.cursors[0], waves));
    this.statusCells[1].set(describeCursor("B", view.cursors[1], waves));
    this.statusCells[2].set(describeDistance(view.cursorDistance));
    this.cursorSwitches.forEach((cursorSwitch, cursor) => cursorSwitch.set(view.activeCursor === cursor));
    this.canvas.setAttribute("aria-valuemin", String(view.begin));
    this.canvas.setAttribute("aria-valuemax", String(view.end));
    this.canvas.setAttribute("aria-valuenow", String(view.moment));
    const { line = 0, title = "" } = this.rows[this.selectedIndex] || {};
    const heading = line < 0 ? say.groupPrefix(title) : "";
    this.canvas.setAttribute("aria-valuetext", heading + describeForScreenReader(view.moment, waves, this.selectedLine));
    this.values.show(waves, view.cursors);
  }

  /**
   * @param {Waves} waves
   * @param {Picture["measuredRange"]} measuredRange
   */
  draw(waves, measuredRange) {
    const { scroll, canvas, gutter } = this;
    const [width, height] = [scroll.clientWidth, scroll.clientHeight];
    const pixelRatio = devicePixelRatio || 1;
    // Setting the size also clears the canvas, even if the size is unchanged.
    canvas.width = Math.round(width * pixelRatio);
    canvas.height = Math.round(height * pixelRatio);
    canvas.style.setProperty("width", `${width}px`);
    canvas.style.setProperty("height", `${height}px`);
    this.view.width = Math.max(1, width - gutter);
    const context = canvas.getContext("2d");
    if (!context) return;
    context.setTransform(pixelRatio, 0, 0, pixelRatio, 0, 0);
    drawWaves(context, { ...this.makePicture(waves), top: scroll.scrollTop, height, measuredRange });
  }

  /**
   * Returns the picture with all rows, including the rows that are scrolled out of view.
   * @param {Waves} waves
   * @returns {Picture}
   */
  makePicture(waves) {
    const style = getComputedStyle(this.canvas);
    const colours = Object.fromEntries(Object.entries(COLOUR_PROPERTIES).map(([name, property]) => (
      [name, style.getPropertyValue(property).trim()])));
    const { rows, selectedIndex, view, gutter, trigger } = this;
    return {
      waves, rows, selectedIndex, view, top: 0, gutter, height: AXIS_HEIGHT + rows.length * ROW_HEIGHT, trigger, measuredRange: null,
      colours: /** @type {Colours} */ (/** @type {unknown} */ (colours)), font: `12px ${style.fontFamily}`,
    };
  }
}
