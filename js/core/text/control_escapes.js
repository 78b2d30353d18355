// Escapes the control characters in text from outside the program, such as a file name. A terminal would interpret these characters: they
// could move the cursor, change the title, or reverse the writing direction.

// eslint-disable-next-line no-control-regex
const UNSAFE_CHARACTERS = /[\u0000-\u0008\u000b-\u001f\u007f-\u009f\u061c\u200e\u200f\u2028-\u202e\u2066-\u2069]/g;

/**
 * Replaces the control characters in a string, except line feeds and tabs, with escapes such as `\x1B` or `\u202E`.
 * @param {string} text
 */
export function escapeControls(text) {
  return text.replace(UNSAFE_CHARACTERS, (character) => {
    const code = character.charCodeAt(0).toString(16).toUpperCase();
    return code.length > 2 ? `\\u${code.padStart(4, "0")}` : `\\x${code.padStart(2, "0")}`;
  });
}
