// Draws the picture of an example for the gallery: the front panel that the board text describes. Because the program does not run, the
// picture shows the first drawn lamp of each colour as on, and sample digits on a display.

import { partLineRanges } from "../bench/part_lines.js";
import { Face } from "../board/face.js";
import { endOfGroup, isMultiplexed, lampsOfGroup } from "../board/face_board.js";
import { indices } from "../bench/numbers.js";

/**
 * A shape in the picture: a lamp, a key with its legend, or a display with its digits. Sizes are in picture units.
 * @typedef {{ kind: "lamp", x: number, y: number, radius: number, colour: string, isLit: boolean }} LampShape
 * @typedef {{ kind: "key", x: number, y: number, width: number, height: number, legend: string }} KeyShape
 * @typedef {{ kind: "display", x: number, y: number, width: number, height: number, digits: string,
 *   colour: string }} DisplayShape
 * @typedef {LampShape | KeyShape | DisplayShape} Shape
 * @typedef {{ width: number, height: number, shapes: Shape[] }} GalleryPicture
 */

/** The width of the picture, in picture units. */
const PICTURE_WIDTH = 120;
/** The distance between shapes, in picture units. */
const GAP = 4;
/** The positions of the pips of a die, in lamp order: column and row, from 0 to 2. */
const PIPS = [[0, 0], [2, 0], [0, 1], [1, 1], [2, 1], [0, 2], [2, 2]];

class Drawing {
  /** @param {string} text the board text */
  constructor(text) {
    this.face = new Face(text);
    this.parts = partLineRanges(text);
    /** @type {Shape[]} */
    this.shapes = [];
    /** The y position at which the next shape is drawn. */
    this.bottom = GAP;
    /** @type {Set<string>} the colours in which the picture already shows a lamp as on */
    this.litColours = new Set();
    /** @type {Set<number>} the numbers of the lamps that are already drawn */
    this.drawnLamps = new Set();
  }

  get lampCount() {
    return [...this.parts.keys()].filter((name) => name.startsWith("lamp ")).length;
  }

  /**
   * Draws a lamp.
   * @param {number} lamp
   * @param {number} x the x position of the centre, in picture units
   * @param {number} y the y position of the centre
   * @param {number} radius in picture units
   */
  drawLamp(lamp, x, y, radius) {
    const faceText = this.face.colours.get(lamp);
    const colour = faceText ? faceText.text : "red";
    const isLit = !this.litColours.has(colour);
    this.litColours.add(colour);
    this.drawnLamps.add(lamp);
    this.shapes.push({ kind: "lamp", x, y, radius, colour, isLit });
  }

  /** Draws the displays and lamp groups whose lamps all exist on the board. */
  drawGroups() {
    for (const group of this.face.groups.filter((candidate) => endOfGroup(candidate) <= this.lampCount)) {
      for (const lamp of lampsOfGroup(group)) this.drawnLamps.add(lamp);
      if (group.kind === "display") this.drawDisplay(group);
      else if (group.kind === "die") {
        this.drawGrid(indices(7).map((index) => ({ lamp: group.first + index, column: PIPS[index][0], row: PIPS[index][1] })));
      } else {
        const { first, rows, columns } = group;
        // All rows of a multiplexed group use the colours of its columns.
        const lampAt = (/** @type {number} */ index) => first + (isMultiplexed(group) ? index % columns : index);
        this.drawGrid(indices(rows * columns).map((index) => (
          { lamp: lampAt(index), column: index % columns, row: Math.floor(index / columns) })));
      }
    }
  }

  /**
   * Draws a display with sample digits.
   * @param {import("../board/face.js").Group} group a display with one digit per row
   */
  drawDisplay({ rows, first }) {
    const height = 24;
    const colour = (this.face.colours.get(first) || { text: "red" }).text;
    const text = indices(rows).map((index) => String((index + 1) % 10)).join("");
    this.shapes.push({ kind: "display", x: GAP, y: this.bottom, width: PICTURE_WIDTH - 2 * GAP, height, digits: text, colour });
    this.bottom += height + GAP;
  }

  /**
   * Draws lamps in a centred grid.
   * @param {{ lamp: number, column: number, row: number }[]} cells
   */
  drawGrid(cells) {
    if (cells.length === 0) return;
    const columns = Math.max(...cells.map(({ column }) => column)) + 1;
    const rows = Math.max(...cells.map(({ row }) => row)) + 1;
    const pitch = Math.min(16, (PICTURE_WIDTH - 2 * GAP) / columns);
    const leftMargin = (PICTURE_WIDTH - columns * pitch) / 2;
    for (const { lamp, column, row } of cells) {
      this.drawLamp(lamp, leftMargin + (column + 0.5) * pitch, this.bottom + (row + 0.5) * pitch, pitch * 0.36);
    }
    this.bottom += rows * pitch + GAP;
  }

  /** Draws the lamps that are not drawn yet, eight per row. */
  drawOtherLamps() {
    const columns = 8;
    const otherLamps = indices(this.lampCount).filter((lamp) => !this.drawnLamps.has(lamp));
    const width = Math.min(columns, otherLamps.length);
    this.drawGrid(otherLamps.map((lamp, index) => ({ lamp, column: index % width, row: Math.floor(index / columns) })));
  }

  /** Draws the keys that have a legend. */
  drawKeys() {
    const keys = [...this.face.keys.values()].map(({ text, key: { row, column } }) => ({ row, column, legend: text }))
      .filter(({ legend }) => legend !== "");
    if (keys.length === 0) return;
    const columns = Math.max(...keys.map(({ column }) => column)) + 1;
    const width = Math.min(30, (PICTURE_WIDTH - 2 * GAP) / columns);
    const leftMargin = (PICTURE_WIDTH - columns * width) / 2;
    const height = Math.min(14, width);
    for (const { row, column, legend } of keys) {
      const [x, y] = [leftMargin + column * width + 1, this.bottom + row * height + 1];
      this.shapes.push({ kind: "key", x, y, width: width - 2, height: height - 2, legend });
    }
    this.bottom += (Math.max(...keys.map(({ row }) => row)) + 1) * height + GAP;
  }
}

/**
 * Returns the picture of a board.
 * @param {string} boardText
 * @returns {GalleryPicture}
 */
export function drawGalleryPicture(boardText) {
  const drawing = new Drawing(boardText);
  drawing.drawGroups();
  drawing.drawGrid(drawing.face.grid.filter(({ lamp }) => lamp < drawing.lampCount));
  drawing.drawOtherLamps();
  drawing.drawKeys();
  return { width: PICTURE_WIDTH, height: Math.max(40, drawing.bottom), shapes: drawing.shapes };
}
