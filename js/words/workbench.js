// Labels for the page's layout: the names of the panels and the commands for them.

// --- ui/panels.js ---
/** The names of the panels by id, in the order in which the window shows them. */
export const PANELS = {
  front: "Front panel", texts: "Texts", dock: "Dock", processor: "Registers", calls: "Call stack", watched: "Watch",
  breakpoints: "Breakpoints", memory: "RAM", ports: "Ports", history: "More stepping",
};
export const FULL_SIZE = "Full size";
/** @type {(name: string) => string} */
export const fullSizeLabel = (name) => `${name}: full size, and back`;
/** @type {(name: string) => string} */
export const closeLabel = (name) => `${name}: close (View opens it again)`;
export const RESET_LAYOUT = "Reset layout";
