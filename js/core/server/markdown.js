// Converts text to Markdown. Escapes special characters, so that the text cannot contain links, images or headings.

/**
 * Returns Markdown that displays text exactly as written.
 * @param {string} text
 */
export function escapeMarkdown(text) {
  return text.replace(/[\\`*_[\]<|~]|&(?=[#\w])|^[#>+-]/gm, "\\$&");
}

/**
 * Returns Markdown that displays text as inline code. Replaces backticks and vertical bars with blanks.
 * @param {string} text
 */
export function formatCode(text) {
  return `\`${text.replace(/[`|]/g, " ")}\``;
}

/**
 * Returns Markdown that displays lines in a code block.
 * @param {string[]} lines
 */
export function formatBlock(lines) {
  return `~~~text\n${lines.map((line) => line.replace(/~~~/g, "~ ~")).join("\n")}\n~~~`;
}

/**
 * Returns a Markdown table.
 * @param {string[]} head the column headings
 * @param {string[][]} rows the cells of each row, in Markdown
 */
export function formatTable(head, rows) {
  return [head, head.map(() => "---"), ...rows].map((cells) => `| ${cells.join(" | ")} |`).join("\n");
}
