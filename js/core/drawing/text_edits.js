// Applies and inverts text edits. An edit replaces a range of characters. In a list of edits, the offsets of each edit refer to the text
// after the earlier edits.

/**
 * An edit: `insert` replaces the characters from offset `from` up to offset `to`.
 * @typedef {{ from: number, to: number, insert: string }} TextEdit
 */

/**
 * Returns the text after the edits, which are applied in their order.
 * @param {string} text
 * @param {TextEdit[]} edits
 */
export function applyEdits(text, edits) {
  return edits.reduce((currentText, { from, to, insert }) => currentText.slice(0, from) + insert + currentText.slice(to), text);
}

/**
 * Returns the edits that undo a list of edits.
 * @param {string} text the text before the edits
 * @param {TextEdit[]} edits
 * @returns {TextEdit[]}
 */
export function invertEdits(text, edits) {
  let currentText = text;
  /** @type {TextEdit[]} */
  const inverse = [];
  for (const edit of edits) {
    const { from, to, insert } = edit;
    inverse.unshift({ from, to: from + insert.length, insert: currentText.slice(from, to) });
    currentText = applyEdits(currentText, [edit]);
  }
  return inverse;
}

/**
 * Converts edits whose offsets all refer to the same text into successive edits. The edit with the last offset comes first, so that the
 * other offsets stay valid. If ranges overlap, each character is deleted once.
 * @param {TextEdit[]} edits
 * @returns {TextEdit[]}
 */
export function makeSuccessive(edits) {
  let end = Infinity;
  return [...edits].sort((a, b) => b.from - a.from || b.to - a.to).map(({ from, to, insert }) => {
    const edit = { from, to: Math.max(from, Math.min(to, end)), insert };
    end = from;
    return edit;
  });
}
