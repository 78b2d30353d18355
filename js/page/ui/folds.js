// Panels that can be folded down to their headings.

import { block, element, onClick } from "./dom.js";
import * as say from "../../words/page.js";

/**
 * @typedef {import("./preferences.js").Preferences} Preferences
 */

/**
 * Turns the heading of each panel with `data-fold` into a button that folds the panel. Stores the user's choice. Returns the panels' ids.
 * @param {Preferences} preferences
 */
export function makeFolds(preferences) {
  const panels = [.../** @type {NodeListOf<HTMLElement>} */ (document.querySelectorAll("[data-fold]"))];
  for (const panel of panels) {
    const heading = panel.querySelector("h2");
    if (!heading) continue;
    heading.replaceChildren(makeFold(panel, heading.textContent || "", preferences));
  }
  return panels.map(({ id }) => id);
}

/**
 * @param {HTMLElement} panel
 * @param {string} title
 * @param {Preferences} preferences
 */
function makeFold(panel, title, preferences) {
  const preferenceKey = `fold.${panel.id}`;
  const foldButton = element("button", { type: "button", className: "fold", title: say.FOLD_HINT }, title);
  let isFolded = preferences.get(preferenceKey) === "folded";
  const showState = () => {
    panel.classList.toggle("folded", isFolded);
    foldButton.setAttribute("aria-expanded", String(!isFolded));
  };
  onClick(foldButton, () => {
    isFolded = !isFolded;
    preferences.set(preferenceKey, isFolded ? "folded" : "unfolded");
    showState();
  });
  showState();
  return foldButton;
}

/**
 * Unfolds a panel if it is folded.
 * @param {string} id
 */
export function unfold(id) {
  const foldButton = block(id).querySelector("h2 > .fold[aria-expanded='false']");
  if (foldButton instanceof HTMLElement) foldButton.click();
}
