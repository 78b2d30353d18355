// Removes unsafe characters from names that other people have chosen, so that a name in a link cannot imitate text on the page.

/** The maximum length of a name, in characters. */
const MAX_NAME_LENGTH = 60;
/** Matches control characters, bidirectional marks, line separators and invisible characters. */
const UNSAFE_CHARACTERS = /[\p{Cc}\p{Bidi_Control}\u200b\u2028\u2029\u2060\ufeff]/gu;

/**
 * Returns a name without line ends or unsafe characters, shortened to the maximum length.
 * @param {string} text
 */
export function shortenName(text) {
  const letters = [...text.replace(UNSAFE_CHARACTERS, " ").replace(/\s+/g, " ").trim()];
  return letters.length <= MAX_NAME_LENGTH ? letters.join("") : `${letters.slice(0, MAX_NAME_LENGTH - 1).join("").trimEnd()}\u2026`;
}
