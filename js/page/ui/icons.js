// The page's icons, drawn with lines of equal width in a box of 16 by 16 units.

import { svgElement } from "./svg.js";

/** The SVG path commands of each icon: first its lines, then, after a `|`, its filled shapes. */
const ICON_PATHS = {
  continue: "|M4,2.5,13,8l-9,5.5z",
  pause: "|M4,3h3v10H4zM9,3h3v10H9z",
  over: "M2,8a6,5,0,0,1,11-1M13,3v4H9|M6.7,13a1.3,1.3,0,1,0,2.6,0,1.3,1.3,0,1,0-2.6,0z",
  into: "M8,2v7M5,6l3,3,3-3|M6.7,13a1.3,1.3,0,1,0,2.6,0,1.3,1.3,0,1,0-2.6,0z",
  out: "M8,9V2M5,5l3-3,3,3|M6.7,13a1.3,1.3,0,1,0,2.6,0,1.3,1.3,0,1,0-2.6,0z",
  back: "M9,3,4,8l5,5M13,3,8,8l5,5",
  reset: "M3,8a5,5,0,1,0,2-4M5,1v3h3",
  open: "M2,13V3h4l2,2h6v2M2,13l2-6h11l-2,6z",
  save: "M2,2h9l3,3v9H2zM5,2v4h5V2M5,14V9h6v5",
  export: "M8,10V2M5,5l3-3,3,3M3,9v5h10V9",
  share: "M6,8.8l4,2.4M10,4.8,6,7.2M2,8a2,2,0,1,0,4,0,2,2,0,1,0-4,0zM10,3.8a2,2,0,1,0,4,0,2,2,0,1,0-4,0z"
    + "M10,12.2a2,2,0,1,0,4,0,2,2,0,1,0-4,0z",
  print: "M4,6V2h8v4M4,11H2V6h12v5h-2M4,9h8v5H4z",
  search: "M3,7a4,4,0,1,0,8,0,4,4,0,1,0-8,0zM10,10l4,4",
  goTo: "M2,8h10M8,4l4,4-4,4M14,3v10",
  notices: "M4,11V7a4,4,0,0,1,8,0v4l1,1H3zM7,14h2",
  theme: "M2,8a6,6,0,1,0,12,0,6,6,0,1,0-12,0z|M8,2a6,6,0,0,1,0,12z",
  help: "M5.5,6a2.5,2.5,0,1,1,3.6,2.2C8.3,8.7,8,9.2,8,10|M7,13a1,1,0,1,0,2,0,1,1,0,1,0-2,0z",
  examples: "M2,2h5v5H2zM9,2h5v5H9zM2,9h5v5H2zM9,9h5v5H9z",
  projects: "M2,4h5l1,2h6v7H2zM2,8h12",
  file: "M4,1.5h5l3,3V14.5H4zM9,1.5V5h3",
  lamp: "M6,13h4M6.5,15h3M5.5,10.5a4.5,4.5,0,1,1,5,0v.500h-5z",
  assemble: "M2,4h6M2,8h4M2,12h4|M8,6.5,15,10.5l-7,4z",
  tests: "M3,8.5,6.5,12,13,4",
  breakpoint: "|M3,8a5,5,0,1,0,10,0,5,5,0,1,0-10,0z",
  record: "M2,8a6,6,0,1,0,12,0,6,6,0,1,0-12,0z|M5,8a3,3,0,1,0,6,0,3,3,0,1,0-6,0z",
  more: "|M2,8a1.3,1.3,0,1,0,2.6,0,1.3,1.3,0,1,0-2.6,0zM6.7,8a1.3,1.3,0,1,0,2.6,0,1.3,1.3,0,1,0-2.6,0z"
    + "M11.4,8a1.3,1.3,0,1,0,2.6,0,1.3,1.3,0,1,0-2.6,0z",
  chip: "M5,3h6v10H5zM2,5h3M2,8h3M2,11h3M11,5h3M11,8h3M11,11h3",
  down: "M4,6l4,4,4-4",
  close: "M4,4l8,8M12,4l-8,8",
};

/** @typedef {keyof typeof ICON_PATHS} IconName */

/** The names of all icons. */
export const ICON_NAMES = /** @type {IconName[]} */ (Object.keys(ICON_PATHS));

/**
 * Returns a new icon. Screen readers skip the icon, because the surrounding control has a label.
 * @param {IconName} name
 * @returns {SVGElement}
 */
export function icon(name) {
  const [lines, filledShapes = ""] = ICON_PATHS[name].split("|");
  const parts = [...(lines ? [svgElement("path", { d: lines })] : []),
    ...(filledShapes ? [svgElement("path", { class: "filled", d: filledShapes })] : [])];
  return svgElement("svg", { "class": "icon", "viewBox": "0 0 16 16", "aria-hidden": "true", "focusable": "false" }, ...parts);
}
