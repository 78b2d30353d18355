// Lays out the lamps of a board as rows of cells for the terminal: first the lamps of groups (except displays) and of the grid, then the
// other named lamps.

import { fittingGroups, isMultiplexed, lampNames, lampsOutsideGroups } from "../board/face_board.js";
import { lampReader, scannedLampReader } from "../board/lamp_state.js";
import { indices } from "../bench/numbers.js";

/**
 * @typedef {import("../board/face.js").Face} Face
 * @typedef {import("../board/face.js").Group} Group
 * @typedef {import("../board/lamp_state.js").LampReader} LampReader
 *
 * A cell in a row. `reader` reads the state of its lamp (null for a gap); `width` is its width in characters; `name` is the name of the
 * lamp and `colour` its colour ("" for none).
 * @typedef {{ reader: LampReader | null, width: number, name: string, colour: string }} LampCell
 */

/** A group with at least this number of columns is drawn without gaps between its lamps. */
const MIN_COLUMNS_WITHOUT_GAPS = 13;
/** The width of a die cell in characters. */
const DIE_WIDTH = 4;
/** The number of characters around the name in a cell: `( ) ` before the name and a blank after the name. */
const NAME_PADDING = 5;
const DEFAULT_COLOUR = "red";
/** The characters for lamps, by brightness level. */
const LEVEL_CHARACTERS = [" ", ":", "+", "*"];

/** Builds the lamp rows of a board. */
class LampRows {
  /**
   * @param {Face} face
   * @param {number} lampCount the number of lamps on the board
   */
  constructor(face, lampCount) {
    this.face = face;
    this.names = lampNames(face, lampCount);
    /** @type {LampCell[][]} the rows; an empty row separates groups */
    this.rows = [];
    let multiplexedCount = 0;
    for (const group of fittingGroups(face, lampCount)) {
      if (group.kind === "display") continue;
      this.addGroup(group, isMultiplexed(group) ? multiplexedCount++ : -1);
    }
    this.addGrid(face.grid.filter(({ lamp }) => lamp < lampCount));
    for (const lamp of lampsOutsideGroups(face, lampCount)) {
      if (this.names[lamp] !== "") this.rows.push([this.makeNamedCell(lamp, this.findCellWidth(lamp))]);
    }
  }

  /**
   * Returns the width that a cell needs for the name of its lamp; 0 if the lamp has no name.
   * @param {number} lamp
   */
  findCellWidth(lamp) {
    return this.names[lamp] === "" ? 0 : this.names[lamp].length + NAME_PADDING;
  }

  /**
   * Returns a cell that shows a lamp.
   * @param {LampReader} reader reads the lamp
   * @param {number} lamp the lamp that determines the colour of the cell
   * @param {number} width
   * @param {string} name
   * @returns {LampCell}
   */
  makeCell(reader, lamp, width, name) {
    const colour = this.face.colours.get(lamp);
    return { reader, width, name, colour: colour ? colour.text : DEFAULT_COLOUR };
  }

  /**
   * Returns a cell that shows a lamp and its name.
   * @param {number} lamp
   * @param {number} width
   */
  makeNamedCell(lamp, width) {
    return this.makeCell(lampReader(lamp), lamp, width, this.names[lamp]);
  }

  /**
   * Adds the rows of a group.
   * @param {Group} group
   * @param {number} multiplexedIndex the index among the multiplexed groups that are not displays; -1 if the group is not multiplexed
   */
  addGroup(group, multiplexedIndex) {
    const { kind, first, rows, columns } = group;
    const width = kind === "die" ? DIE_WIDTH : columns < MIN_COLUMNS_WITHOUT_GAPS ? 2 : 1;
    const cells = indices(rows * columns).map((index) => {
      if (multiplexedIndex < 0) return this.makeCell(lampReader(first + index), first + index, width, "");
      const lamp = scannedLampReader(group, multiplexedIndex, index);
      return this.makeCell(lamp, lamp.column, width, "");
    });
    if (kind === "die") this.addDie(cells);
    else for (const row of indices(rows)) this.rows.push(cells.slice(row * columns, (row + 1) * columns));
    this.rows.push([]);
  }

  /**
   * Adds the three rows of a die: two, three and two pips.
   * @param {LampCell[]} pips the seven cells of the pips
   */
  addDie([first, second, ...otherPips]) {
    const gapCell = makeGapCell(DIE_WIDTH);
    this.rows.push([first, gapCell, second], otherPips.slice(0, 3), [otherPips[3], gapCell, otherPips[4]]);
  }

  /**
   * Adds the rows of the grid.
   * @param {Face["grid"]} grid the grid lamps that are on the board
   */
  addGrid(grid) {
    if (grid.length === 0) return;
    const columns = indices(Math.max(...grid.map(({ column }) => column)) + 1);
    const widths = columns.map((gridColumn) => {
      const lampsInColumn = grid.filter(({ column }) => column === gridColumn);
      return Math.max(2, ...lampsInColumn.map(({ lamp }) => this.findCellWidth(lamp)));
    });
    for (const row of indices(Math.max(...grid.map((cell) => cell.row)) + 1)) {
      this.rows.push(columns.map((column) => {
        const gridLamp = grid.find((cell) => cell.row === row && cell.column === column);
        return gridLamp ? this.makeNamedCell(gridLamp.lamp, widths[column]) : makeGapCell(widths[column]);
      }));
    }
    this.rows.push([]);
  }
}

/**
 * Returns a cell that shows no lamp, as a gap.
 * @param {number} width
 * @returns {LampCell}
 */
function makeGapCell(width) {
  return { reader: null, width, name: "", colour: "" };
}

/**
 * Returns the lamp rows of a board.
 * @param {Face} face
 * @param {number} lampCount the number of lamps on the board
 */
export function buildLampRows(face, lampCount) {
  return new LampRows(face, lampCount).rows;
}

/**
 * Returns the text of a cell: `(*) red`, or one character if the lamp has no name. Blanks fill the cell. A gap consists only of blanks.
 * @param {LampCell} cell
 * @param {number} level the brightness level
 */
export function formatCell({ reader, width, name }, level) {
  if (!reader) return " ".repeat(width);
  const text = name === "" ? (level > 0 ? LEVEL_CHARACTERS[level] : ".") : `(${LEVEL_CHARACTERS[level]}) ${name}`;
  return text.padEnd(width);
}
