// Draws the preview pictures of examples and sessions.

import { drawGalleryPicture } from "../../core/session/gallery_picture.js";
import { icon } from "../ui/icons.js";
import { svgElement } from "../ui/svg.js";

/** @typedef {import("../../core/session/gallery_picture.js").Shape} Shape */

/**
 * @param {Shape} shape
 * @returns {SVGElement[]}
 */
function drawShape(shape) {
  if (shape.kind === "lamp") {
    return [svgElement("circle", { class: `lamp ${shape.colour}${shape.isLit ? " lit" : ""}`, cx: shape.x, cy: shape.y, r: shape.radius })];
  }
  const { x, y, width, height } = shape;
  const [centreX, centreY] = [x + width / 2, y + height / 2];
  if (shape.kind === "key") {
    return [svgElement("rect", { class: "cap", x, y, width, height, rx: 2 }),
      svgElement("text", { x: centreX, y: centreY + 3 }, shape.legend)];
  }
  return [svgElement("rect", { class: "glass", x, y, width, height, rx: 2 }),
    svgElement("text", { class: `digits ${shape.colour}`, x: x + width - 5, y: centreY + 6 }, shape.digits)];
}

/** Returns a picture of a chip, which is shown for a board with an empty front panel. */
function drawEmptyPicture() {
  const picture = icon("chip");
  picture.classList.add("picture", "empty-picture");
  return picture;
}

/**
 * Returns a picture of a board's front panel. Screen readers skip the picture, because a description is next to it.
 * @param {string} boardText
 */
export function drawBoardPicture(boardText) {
  const { width, height, shapes } = drawGalleryPicture(boardText);
  if (shapes.length === 0) return drawEmptyPicture();
  return svgElement("svg", { class: "picture", viewBox: `0 0 ${width} ${height}`, "aria-hidden": "true" }, ...shapes.flatMap(drawShape));
}
