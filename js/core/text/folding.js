// Finds the ranges of lines that an editor can fold: the code below a label, a table of a board text, a test, or consecutive comment lines.

/**
 * A function that returns the text of a line by its number, from 0; undefined after the last line.
 * @typedef {(line: number) => string | undefined} LineAt
 *
 * The patterns that delimit the foldable ranges of a text. `mark` starts a comment. `head` matches the first line of a range, its head. If
 * `isNested` is true, a head directly after a code line starts a nested range, like the label of a loop in a subroutine.
 * @typedef {{ mark: string, head: RegExp, isNested: boolean }} FoldPatterns
 */

/** @type {Record<"program" | "board" | "tests", FoldPatterns>} the patterns, by kind of text */
export const FOLD_PATTERNS = {
  program: { mark: ";", head: /^[ \t]*[A-Za-z_]\w*[ \t]*:/, isNested: true },
  board: { mark: "#", head: /^[ \t]*\[/, isNested: false },
  tests: { mark: "#", head: /^[ \t]*test\b/, isNested: false },
};

/**
 * Returns whether a line is blank or does not exist.
 * @param {string | undefined} text
 */
function isBlank(text) {
  return text === undefined || text.trim() === "";
}

/**
 * Returns whether a line contains only a comment.
 * @param {string | undefined} text
 * @param {FoldPatterns} patterns
 */
function isComment(text, { mark }) {
  return text !== undefined && text.trimStart().startsWith(mark);
}

/**
 * Returns whether the head in a line starts an outer range: a range that is not nested in another one. A head after a blank line or a
 * comment starts an outer range. In a text without nested ranges, each head does.
 * @param {LineAt} lineAt
 * @param {number} line
 * @param {FoldPatterns} patterns
 */
function startsOuterRange(lineAt, line, patterns) {
  const previousLine = line === 0 ? undefined : lineAt(line - 1);
  return !patterns.isNested || isBlank(previousLine) || isComment(previousLine, patterns);
}

/**
 * Returns whether the current foldable range ends before a line.
 * @param {LineAt} lineAt
 * @param {number} line
 * @param {FoldPatterns} patterns
 * @param {boolean} isOuterRange true if the current range is an outer range
 */
function isRangeEnd(lineAt, line, patterns, isOuterRange) {
  const text = lineAt(line) || "";
  if (patterns.head.test(text)) return !isOuterRange || startsOuterRange(lineAt, line, patterns);
  // An unindented comment after a blank line belongs to the next range, so the current range ends here.
  return text.startsWith(patterns.mark) && isBlank(lineAt(line - 1));
}

/**
 * Returns the last line of the foldable range that starts at a line; the line itself if no range starts there.
 * @param {LineAt} lineAt
 * @param {number} line the line number from 0
 * @param {FoldPatterns} patterns
 */
export function findFoldEnd(lineAt, line, patterns) {
  const text = lineAt(line) || "";
  let end = line;
  if (isComment(text, patterns)) {
    if (line > 0 && isComment(lineAt(line - 1), patterns)) return line;
    while (isComment(lineAt(end + 1), patterns)) end += 1;
    return end;
  }
  if (!patterns.head.test(text)) return line;
  const isOuterRange = startsOuterRange(lineAt, line, patterns);
  while (lineAt(end + 1) !== undefined && !isRangeEnd(lineAt, end + 1, patterns, isOuterRange)) end += 1;
  while (isBlank(lineAt(end))) end -= 1;
  return end;
}

/**
 * Returns the first line of the innermost foldable range that contains a line, which can be this line; -1 if no range contains the line.
 * @param {LineAt} lineAt
 * @param {number} line
 * @param {FoldPatterns} patterns
 */
export function findFoldStart(lineAt, line, patterns) {
  for (let head = line; head >= 0; head--) {
    const last = findFoldEnd(lineAt, head, patterns);
    if (last > head && last >= line) return head;
  }
  return -1;
}
