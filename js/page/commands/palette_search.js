// The palette's search: finds the entries that contain all words of the query, best matches first.

/**
 * A palette entry. `hint` is the text next to its label. `disabledReason` is the reason why the entry cannot be executed, or "" if it can.
 * `isForQuery` is true if the entry was made for the query, for example for a typed address. Such an entry is always listed, even if its
 * label does not match the query.
 * @typedef {{ label: string, hint: string, disabledReason: string, keys: string[], icon?: import("../ui/icons.js").IconName,
 *   isForQuery?: boolean, act: () => void }} Entry
 */

/** @param {string} query */
export function splitQuery(query) {
  return query.toLowerCase().split(/\s+/).filter(Boolean);
}

/**
 * Returns an entry's rank, from best to worst, or -1 if the entry does not match:
 * - 0: the entry was made for the query, or its label begins with the query;
 * - 1: each query word begins a word of the label;
 * - 2: the label contains each query word;
 * - 3: label, hint and keys together contain each query word.
 * @param {Entry} entry
 * @param {string[]} queryWords
 */
export function rankEntry({ label, hint, keys, isForQuery }, queryWords) {
  const lowerLabel = label.toLowerCase();
  const searchText = `${label} ${hint} ${keys.join(" ")}`.toLowerCase();
  if (isForQuery || lowerLabel.startsWith(queryWords.join(" "))) return 0;
  const labelWords = lowerLabel.split(/[^a-z0-9]+/);
  if (queryWords.every((word) => labelWords.some((labelWord) => labelWord.startsWith(word)))) return 1;
  if (queryWords.every((word) => lowerLabel.includes(word))) return 2;
  return queryWords.every((word) => searchText.includes(word)) ? 3 : -1;
}

/**
 * Returns the entries that match a query, best first. Entries of equal rank keep their order.
 * @param {Entry[]} entries
 * @param {string} query
 */
export function searchEntries(entries, query) {
  const queryWords = splitQuery(query);
  const rankedEntries = entries.map((entry) => ({ entry, rank: rankEntry(entry, queryWords) })).filter(({ rank }) => rank >= 0);
  return rankedEntries.sort((first, second) => first.rank - second.rank).map(({ entry }) => entry);
}
