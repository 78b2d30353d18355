// Draws waves on a canvas, or into a picture file.

import { isDecoder } from "../../core/waves/decoders.js";
import { countUpTo } from "../../core/waves/number_queue.js";
import { isDrawnAsBoxes } from "../../core/waves/wave_lines.js";
import { chooseTickMoments } from "../../core/waves/wave_window.js";

/**
 * @typedef {import("../../core/waves/wave_recording.js").Waves} Waves
 * @typedef {import("../../core/waves/wave_window.js").WaveWindow} WaveWindow
 * @typedef {import("../../core/waves/wave_rows.js").WaveRow} WaveRow
 * @typedef {import("../../core/waves/wave_rows.js").RowColour} RowColour
 * @typedef {CanvasRenderingContext2D | import("../../core/waves/svg_context.js").SvgContext} Context
 * @typedef {{ ink: string, faint: string, grid: string, sheet: string, chosen: string, first: string, second: string, measured: string }
 *   & Record<RowColour, string>} Colours
 * @typedef {{ row: number, from: number, to: number }} RowRange the part of a row between two moments
 */

/**
 * The picture to draw.
 * @typedef {object} Picture
 * @property {Waves} waves The recording.
 * @property {WaveRow[]} rows The rows in their order.
 * @property {number} selectedIndex The index of the selected row, or -1 if there is none.
 * @property {WaveWindow} view The visible cycles, and the cursors.
 * @property {number} top The vertical scroll position in pixels.
 * @property {number} gutter The width in pixels of the gutter with the names.
 * @property {number} height The height of the picture in pixels.
 * @property {number} trigger The moment of the trigger, or -1 if there is none.
 * @property {RowRange | null} measuredRange The measured range at the pointer, or null if there is none.
 * @property {Colours} colours The colour of each element.
 * @property {string} font The font of all text, as a CSS value.
 */

/** The height in pixels of the time axis. */
export const AXIS_HEIGHT = 26;
/** The height in pixels of a row. */
export const ROW_HEIGHT = 26;
/** The space in pixels reserved for a number on the time axis. */
const TICK_WIDTH = 92;
/** The width in pixels of a cursor's flag, which shows its letter. */
const FLAG_WIDTH = 14;
/** The indentation in pixels of the names within a group. */
const GROUP_INDENT = 14;
/** The distance in pixels between the edge of a row and its high or low level. */
const LEVEL_MARGIN = 5;

/**
 * @param {Context} context
 * @param {Picture} picture
 */
export function drawWaves(context, picture) {
  const { view, gutter, height, rows, top, colours } = picture;
  const width = gutter + view.width;
  context.clearRect(0, 0, width, height);
  context.font = picture.font;
  context.textBaseline = "middle";
  context.lineWidth = 1;
  drawTicks(context, picture);
  const firstRow = Math.max(0, Math.floor(top / ROW_HEIGHT));
  const endRow = Math.min(rows.length, Math.ceil((top + height - AXIS_HEIGHT) / ROW_HEIGHT));
  drawClipped(context, [0, AXIS_HEIGHT, width, height - AXIS_HEIGHT], () => {
    for (let row = firstRow; row < endRow; row++) drawRow(context, picture, row, AXIS_HEIGHT + row * ROW_HEIGHT - top);
  });
  drawClipped(context, [gutter - FLAG_WIDTH, 0, view.width + FLAG_WIDTH, height], () => {
    if (picture.trigger >= view.begin) {
      drawMark(context, picture, { moment: picture.trigger, letter: "T", y: 7, colour: colours.ink, dash: [2, 2] });
    }
    [colours.first, colours.second].forEach((colour, cursor) => drawCursor(context, picture, cursor, colour));
  });
}

/**
 * Draws with a clip rectangle, so that nothing is drawn outside `box`.
 * @param {Context} context
 * @param {[number, number, number, number]} box
 * @param {() => void} draw
 */
function drawClipped(context, box, draw) {
  context.save();
  context.beginPath();
  context.rect(...box);
  context.clip();
  draw();
  context.restore();
}

/**
 * @param {Context} context
 * @param {Picture} picture
 */
function drawTicks(context, { view, gutter, height, colours }) {
  let nextFreeX = 0;
  for (const cycle of chooseTickMoments(view, TICK_WIDTH)) {
    const x = Math.round(gutter + view.xAt(cycle)) + 0.5;
    context.strokeStyle = colours.grid;
    strokeLine(context, x, 18, x, height);
    context.fillStyle = colours.faint;
    const text = cycle.toLocaleString("en");
    const { width } = context.measureText(text);
    // The number is beside its tick, so that a cursor at the tick does not cover it.
    const textLeft = x + FLAG_WIDTH / 2 + 2;
    const textX = textLeft + width > gutter + view.width ? x - 3 - width : textLeft;
    if (textX < nextFreeX) continue;
    context.fillText(text, textX, 10);
    nextFreeX = textX + width + 6;
  }
  context.fillStyle = colours.faint;
  context.fillText("cycles", 4, 10);
}

/**
 * @param {Context} context
 * @param {number[]} points alternating x and y coordinates
 */
function strokeLine(context, ...points) {
  context.beginPath();
  for (let index = 0; index < points.length; index += 2) context.lineTo(points[index], points[index + 1]);
  context.stroke();
}

/**
 * @param {Context} context
 * @param {Picture} picture
 * @param {number} rowIndex
 * @param {number} y
 */
function drawRow(context, picture, rowIndex, y) {
  const { waves, rows, selectedIndex, view, gutter, colours, measuredRange } = picture;
  const { line, title, colour, group, isFolded } = rows[rowIndex];
  if (rowIndex === selectedIndex) {
    context.fillStyle = colours.chosen;
    context.fillRect(0, y, gutter + view.width, ROW_HEIGHT);
  }
  context.strokeStyle = colours.grid;
  strokeLine(context, 0, y + ROW_HEIGHT - 0.5, gutter + view.width, y + ROW_HEIGHT - 0.5);
  context.fillStyle = colours.ink;
  if (line < 0) {
    context.fillText(`${isFolded ? "\u25B8" : "\u25BE"} ${title}`, 4, y + ROW_HEIGHT / 2);
    return;
  }
  const name = `${rowIndex === selectedIndex ? "\u25B8" : ""}${title || formatGutterName(waves.lines[line])}`;
  const value = formatGutterValue(picture, line);
  const valueWidth = Math.min(88, context.measureText(value).width);
  const ink = colour === "" ? colours.ink : colours[colour];
  context.fillStyle = ink;
  drawClipped(context, [0, y, gutter - 14 - valueWidth, ROW_HEIGHT], () => {
    context.fillText(name, group === "" ? 4 : GROUP_INDENT, y + ROW_HEIGHT / 2);
  });
  context.textAlign = "right";
  drawClipped(context, [gutter - 92, y, 88, ROW_HEIGHT], () => context.fillText(value, gutter - 6, y + ROW_HEIGHT / 2));
  context.textAlign = "left";
  drawClipped(context, [gutter, y, view.width, ROW_HEIGHT], () => {
    context.strokeStyle = context.fillStyle = ink;
    if (isDrawnAsBoxes(waves.lines[line])) drawValueBoxes(context, picture, line, y);
    else drawLevels(context, picture, line, y);
    if (measuredRange && measuredRange.row === rowIndex) drawMeasuredRange(context, picture, measuredRange, y);
  });
}

/**
 * Underlines the measured range of a row.
 * @param {Context} context
 * @param {Picture} picture
 * @param {RowRange} measuredRange
 * @param {number} y
 */
function drawMeasuredRange(context, { view, gutter, colours }, { from, to }, y) {
  const [startX, endX] = [from, to].map((moment) => Math.min(Math.max(view.xAt(moment), -2), view.width + 2));
  context.fillStyle = colours.measured;
  context.fillRect(gutter + startX, y + ROW_HEIGHT - 4, Math.max(1, endX - startX), 3);
}

/**
 * Returns the name of a line for the gutter. The name of a port includes the port's name in the board's text. The name of a decoder is its
 * title.
 * @param {import("../../core/waves/wave_lines.js").WaveLine} line
 */
function formatGutterName(line) {
  const { name, title, kind } = line;
  if (isDecoder(line)) return title;
  return kind === "port" && title !== "" ? `${title} ${name}` : name;
}

/**
 * Returns the value of a line at the active cursor, for the gutter. Labels and decoders show their values only in their rows.
 * @param {Picture} picture
 * @param {number} line
 */
function formatGutterValue({ waves, view }, line) {
  return waves.lines[line].kind === "label" || isDecoder(waves.lines[line]) ? "" : waves.valueAt(line, view.moment);
}

/**
 * Draws a one-bit line: high and low levels, and a solid block where several edges share a pixel.
 * @param {Context} context
 * @param {Picture} picture
 * @param {number} line
 * @param {number} y
 */
function drawLevels(context, { waves, view, gutter }, line, y) {
  const changes = waves.changesOf(line);
  const [high, low] = [y + LEVEL_MARGIN + 0.5, y + ROW_HEIGHT - LEVEL_MARGIN - 0.5];
  const endX = Math.min(view.width, view.xAt(waves.cycles));
  let level = waves.numberAt(line, Math.floor(view.from));
  let changeIndex = countUpTo(changes, Math.floor(view.from));
  context.lineWidth = 1.5;
  context.beginPath();
  context.moveTo(gutter, level ? high : low);
  while (changeIndex < changes.length && view.xAt(changes[changeIndex]) < endX) {
    const x = view.xAt(changes[changeIndex]);
    const nextIndex = countUpTo(changes, view.timeAt(x + 1));
    if (nextIndex > changeIndex + 1) {
      // Several edges are in the same pixel column, so draw a solid block.
      context.lineTo(gutter + x, level ? high : low);
      context.fillRect(gutter + x, high, 1, low - high);
      level ^= (nextIndex - changeIndex) & 1;
      context.moveTo(gutter + x + 1, level ? high : low);
      changeIndex = nextIndex;
      continue;
    }
    context.lineTo(gutter + x, level ? high : low);
    level ^= 1;
    context.lineTo(gutter + x, level ? high : low);
    changeIndex += 1;
  }
  context.lineTo(gutter + endX, level ? high : low);
  context.stroke();
  context.lineWidth = 1;
}

/**
 * Draws a line whose values are shown as text, for example the program counter: a box for each value, with the value inside if it fits.
 * @param {Context} context
 * @param {Picture} picture
 * @param {number} line
 * @param {number} y
 */
function drawValueBoxes(context, { waves, view, gutter }, line, y) {
  const changes = waves.changesOf(line);
  const [high, low] = [y + LEVEL_MARGIN + 0.5, y + ROW_HEIGHT - LEVEL_MARGIN - 0.5];
  const endX = Math.min(view.width, view.xAt(waves.cycles));
  let startX = 0;
  let changeIndex = countUpTo(changes, Math.floor(view.from));
  strokeLine(context, gutter, high, gutter + endX, high);
  strokeLine(context, gutter, low, gutter + endX, low);
  while (startX < endX) {
    const changeX = changeIndex < changes.length ? view.xAt(changes[changeIndex]) : endX;
    const nextX = Math.min(Math.max(changeX, startX + 1), endX);
    const moment = Math.floor(Math.max(view.from, changeIndex > 0 ? changes[changeIndex - 1] : 0));
    drawValue(context, waves.valueAt(line, moment), gutter + startX, gutter + nextX, y);
    if (nextX < endX) strokeLine(context, gutter + nextX, high, gutter + nextX, low);
    startX = nextX;
    changeIndex = Math.max(changeIndex + 1, countUpTo(changes, view.timeAt(nextX)));
  }
}

/**
 * @param {Context} context
 * @param {string} value
 * @param {number} from
 * @param {number} to
 * @param {number} y
 */
function drawValue(context, value, from, to, y) {
  if (to - from < 26) return;
  const width = context.measureText(value).width;
  if (width + 6 <= to - from) context.fillText(value, from + (to - from - width) / 2, y + ROW_HEIGHT / 2);
}

/**
 * @param {Context} context
 * @param {Picture} picture
 * @param {number} cursor 0 for cursor A, 1 for cursor B
 * @param {string} colour
 */
function drawCursor(context, picture, cursor, colour) {
  const { view } = picture;
  context.lineWidth = view.activeCursor === cursor ? 2 : 1;
  drawMark(context, picture, {
    moment: view.cursors[cursor], letter: cursor === 0 ? "A" : "B", y: cursor === 0 ? 1 : 13, colour, dash: cursor === 0 ? [] : [5, 3],
  });
}

/**
 * Returns the left edge of a mark's flag. The flag is centred on the mark, unless it would cross the right edge of the picture.
 * @param {number} x the x coordinate of the mark
 * @param {number} right the x coordinate of the right edge
 */
export function findFlagLeft(x, right) {
  return Math.min(x - FLAG_WIDTH / 2, right - FLAG_WIDTH);
}

/**
 * Draws a mark: a vertical line with a letter on a flag.
 * @param {Context} context
 * @param {Picture} picture
 * @param {{ moment: number, letter: string, y: number, colour: string, dash: number[] }} mark
 */
function drawMark(context, { view, gutter, height, colours }, { moment, letter, y, colour, dash }) {
  const x = Math.round(gutter + view.xAt(moment)) + 0.5;
  if (x < gutter || view.xAt(moment) > view.width) return;
  context.strokeStyle = context.fillStyle = colour;
  context.setLineDash(dash);
  strokeLine(context, x, 0, x, height);
  context.setLineDash([]);
  context.lineWidth = 1;
  context.textAlign = "center";
  const left = findFlagLeft(x, gutter + view.width);
  context.fillRect(left, y, FLAG_WIDTH, 12);
  context.fillStyle = colours.sheet;
  context.fillText(letter, left + FLAG_WIDTH / 2, y + 6.5);
  context.textAlign = "left";
}
