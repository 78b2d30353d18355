// Finds out whether a button can be used, or could be used if its text or panel were in front.

/**
 * Returns true if an element is a tab panel, an `aside` panel or the view menu. These elements are hidden while another text or panel is in
 * front of them, or while the menu is closed.
 * @param {Element} node
 */
function isTextOrPanel(node) {
  return node.matches("[role=tabpanel], aside, #view-menu");
}

/**
 * Returns true if a button is enabled and visible. A text or panel that is behind another one counts as visible.
 * @param {HTMLButtonElement} button
 */
export function isAvailable(button) {
  if (button.disabled || button.getAttribute("aria-disabled") === "true") return false;
  for (let node = /** @type {HTMLElement | null} */ (button); node; node = node.parentElement) {
    if (node.hidden && !isTextOrPanel(node)) return false;
  }
  return true;
}
