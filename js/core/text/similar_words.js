// Suggests corrections for misspelled words.

import * as say from "../../words/text.js";

/**
 * Returns the edit distance of two words: the minimum number of edits that change one word into the other. An edit inserts, deletes or
 * replaces a letter, or swaps two adjacent letters.
 * @param {string} first
 * @param {string} second
 */
export function editDistance(first, second) {
  /** @type {number[][]} */
  const rows = [[...Array(second.length + 1).keys()]];
  for (let i = 1; i <= first.length; i++) {
    const row = [i];
    for (let j = 1; j <= second.length; j++) {
      const isSame = first[i - 1] === second[j - 1];
      row[j] = Math.min(rows[i - 1][j] + 1, row[j - 1] + 1, rows[i - 1][j - 1] + (isSame ? 0 : 1));
      const isSwapped = i > 1 && j > 1 && first[i - 1] === second[j - 2] && first[i - 2] === second[j - 1];
      if (isSwapped) row[j] = Math.min(row[j], rows[i - 2][j - 2] + 1);
    }
    rows.push(row);
  }
  return rows[first.length][second.length];
}

/**
 * Returns the one or two words that are most similar to a misspelled word; an empty list if no word is similar enough.
 * @param {string} misspelledWord
 * @param {Iterable<string>} words
 * @returns {string[]}
 */
export function findSimilarWords(misspelledWord, words) {
  const maxDistance = misspelledWord.length <= 4 ? 1 : 2;
  const lowerCaseWord = misspelledWord.toLowerCase();
  const candidates = [...words].map((word) => ({ word, distance: editDistance(lowerCaseWord, word.toLowerCase()) }))
    .filter(({ distance }) => distance <= maxDistance);
  const minDistance = Math.min(...candidates.map(({ distance }) => distance));
  return candidates.filter(({ distance }) => distance === minDistance).slice(0, 2).map(({ word }) => word);
}

/**
 * Returns the end of a message: a question that suggests similar words. Returns "" for an empty list.
 * @param {string[]} words
 */
export function formatSuggestion(words) {
  return words.length === 0 ? "" : `; ${words.join(say.OR)}?`;
}
