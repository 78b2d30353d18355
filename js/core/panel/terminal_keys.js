// Splits terminal input into keys. A key is a character, or a sequence that starts with the escape character.

/** Matches one key in the input. */
// eslint-disable-next-line no-control-regex
const KEY_PATTERN = /\u001b(?:\[[0-9;?]*[A-Za-z~]|O[A-Za-z]|[^\u001b[O])?|[^]/gu;
/** @type {Record<string, string>} the arrow keys, by sequence without the escape character */
const ARROWS = { "[C": "right", OC: "right", "[D": "left", OD: "left" };

/**
 * A key that the user has typed. `text` is "left" or "right" for an arrow key, otherwise the characters that the terminal sent.
 * @typedef {{ kind: "arrow" | "sequence" | "escape" | "character", text: string }} TypedKey
 */

/**
 * Splits terminal input into keys.
 * @param {string} input
 * @returns {TypedKey[]}
 */
export function splitKeys(input) {
  return (input.match(KEY_PATTERN) || []).map((text) => {
    if (!text.startsWith("\u001b")) return { kind: "character", text };
    const arrow = ARROWS[text.slice(1)];
    return arrow ? { kind: "arrow", text: arrow } : { kind: text.length > 1 ? "sequence" : "escape", text };
  });
}
