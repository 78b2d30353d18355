// Converts the codes that a printer has received to the lines of a printout.

/** The width of the printer tape in characters. A word that does not fit on a line starts the next line. */
const TAPE_WIDTH = 24;
/** The front-panel word for a code that ends the line instead of printing a word. */
const FEED_WORD = "feed";

/**
 * Returns the text that is printed for a word; `?` if the front panel defines no word for the code.
 * @param {string | undefined} word the front-panel word
 */
function printedText(word) {
  return word === undefined ? "?" : word.replace(/_/g, " ");
}

/**
 * Returns the lines of the printout. Later codes can extend the last line.
 * @param {number[]} codes the codes that the printer has received
 * @param {string[]} words the words for the codes, by code
 */
export function printoutLines(codes, words) {
  const lines = [""];
  for (const code of codes) {
    const last = lines.length - 1;
    if (words[code] === FEED_WORD) {
      lines.push("");
      continue;
    }
    const printed = printedText(words[code]);
    if (lines[last] !== "" && lines[last].length + printed.length > TAPE_WIDTH) lines.push(printed);
    else lines[last] += printed;
  }
  return lines;
}
