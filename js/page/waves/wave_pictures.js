// Draws waves into picture files.

import { SvgContext } from "../../core/waves/svg_context.js";
import { element } from "../ui/dom.js";
import { drawWaves } from "./wave_canvas.js";

/** @typedef {import("./wave_canvas.js").Picture} Picture */

/** The number of pixels of a PNG file for each pixel of the page. */
const PNG_SCALE = 2;

/** @param {Picture} picture */
export function toSvg(picture) {
  const { gutter, view, height, colours } = picture;
  const context = new SvgContext(gutter + view.width, height, colours.sheet);
  drawWaves(context, picture);
  return context.text;
}

/**
 * @param {Picture} picture
 * @param {(blob: Blob) => void} receive
 */
export function renderPng(picture, receive) {
  const { gutter, view, height, colours } = picture;
  const canvas = element("canvas", { width: (gutter + view.width) * PNG_SCALE, height: height * PNG_SCALE });
  const context = canvas.getContext("2d");
  if (!context) return;
  context.scale(PNG_SCALE, PNG_SCALE);
  drawWaves(context, picture);
  context.globalCompositeOperation = "destination-over";
  context.fillStyle = colours.sheet;
  context.fillRect(0, 0, canvas.width, canvas.height);
  canvas.toBlob((blob) => blob && receive(blob));
}
