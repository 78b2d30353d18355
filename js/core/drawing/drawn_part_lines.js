// Finds the lines of a board text that define each part of the board drawing.

import { partLineRanges } from "../bench/part_lines.js";
import { Face } from "../board/face.js";

/**
 * Returns the range of lines that define each part, by part name. Front-panel comments define the buzzer, and the button or switch at the
 * TEST pin.
 * @param {string} text
 */
export function drawnPartLines(text) {
  const lines = partLineRanges(text);
  const { test, buzzer } = new Face(text);
  if (test) lines.set("test", { from: test.line, to: test.line });
  if (buzzer) lines.set("buzzer", { from: buzzer.line, to: buzzer.line });
  return lines;
}
