// Replaces tabs with blanks.

const TAB_WIDTH = 8;

/**
 * Returns a line with blanks instead of tabs. Tab stops are at multiples of eight characters.
 * @param {string} text
 */
export function expandTabs(text) {
  return text.split("\t").reduce((line, part) => line.padEnd(line.length + TAB_WIDTH - (line.length % TAB_WIDTH)) + part);
}
