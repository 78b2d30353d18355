// Wraps paragraphs into lines of a maximum width.

/**
 * Returns a paragraph, wrapped into lines. A word that is longer than the width gets a separate line.
 * @param {string} text
 * @param {number} width the maximum line length, including the prefix
 * @param {string} [firstPrefix] the prefix of the first line
 * @param {string} [otherPrefix] the prefix of the other lines
 */
export function wrapText(text, width, firstPrefix = "", otherPrefix = firstPrefix) {
  const lines = [firstPrefix];
  let isFirstWord = true;
  for (const word of text.trim().split(/\s+/)) {
    const last = lines[lines.length - 1];
    if (!isFirstWord && last.length + 1 + word.length > width) lines.push(otherPrefix + word);
    else lines[lines.length - 1] = isFirstWord ? last + word : `${last} ${word}`;
    isFirstWord = false;
  }
  return lines.join("\n");
}

/** The prefix of message lines that `wrapMessage` does not wrap, such as quoted program and board lines. */
export const UNWRAPPED_PREFIX = "    ";

/**
 * Returns a message with its long lines wrapped, and the continuation lines indented.
 * @param {string} message
 * @param {number} width
 */
export function wrapMessage(message, width) {
  return message.split("\n").map((line) => {
    if (line.length <= width || line.startsWith(UNWRAPPED_PREFIX)) return line;
    const indent = line.slice(0, line.length - line.trimStart().length);
    return wrapText(line, width, indent, `${indent}  `);
  }).join("\n");
}
