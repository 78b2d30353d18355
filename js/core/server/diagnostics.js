// Converts the errors in a text to diagnostics and quick fixes in the protocol's format.

import { MAX_ERRORS } from "../bench/text_check_answers.js";
import { MAX_STORED_LENGTH, TEXT_TOO_LONG } from "../text/sendable_text.js";
import { rangeInLine } from "./lsp_protocol.js";
import * as say from "../../words/server.js";

/**
 * @typedef {import("../text/sendable_text.js").TextError} TextError
 * @typedef {import("./lsp_protocol.js").Range} Range
 *
 * An error or a warning in any kind of text: a warning if `number` is 0 and `isError` is not true.
 * @typedef {TextError & { isError?: boolean }} ShownError
 * @typedef {{ range: Range, severity: number, code?: number, source: string, message: string }} Diagnostic
 */

/** The severities of diagnostics in the protocol. */
const ERROR = 1;
const WARNING = 2;
const INFORMATION = 3;
/** The name of the program that reports the diagnostics. */
const SOURCE = "mcs4";

/**
 * Returns the diagnostic for an error. In a board text, an error without a number concerns the front panel and is only a warning.
 * @param {ShownError} error
 * @returns {Diagnostic}
 */
export function toDiagnostic({ number, line, from, to, words, isError = number > 0 }) {
  const diagnostic = { range: rangeInLine(line, from, to), source: SOURCE, message: words, severity: isError ? ERROR : WARNING };
  return number > 0 ? { ...diagnostic, code: number } : diagnostic;
}

/**
 * Returns the diagnostics of a text, one for each of the first MAX_ERRORS errors. If the text has, or may have, more errors, adds a
 * diagnostic that says so.
 * @param {ShownError[]} errors
 * @param {boolean} isComplete false if the text may have errors that are not in `errors`
 * @returns {Diagnostic[]}
 */
export function toDiagnostics(errors, isComplete) {
  const diagnostics = errors.slice(0, MAX_ERRORS).map(toDiagnostic);
  const hasMore = errors.length > MAX_ERRORS || (!isComplete && errors.length > 1);
  if (!hasMore) return diagnostics;
  const { range } = diagnostics[diagnostics.length - 1];
  return [...diagnostics, { range, severity: INFORMATION, source: SOURCE, message: say.MAY_BE_MORE }];
}

/**
 * Returns the error for a text that is too long to check; null for any other text. The range of the error begins at the maximum length
 * and ends at the end of that line.
 * @param {import("./open_text.js").OpenText} openText
 * @returns {TextError | null}
 */
export function findLengthError({ lines, length }) {
  if (length <= MAX_STORED_LENGTH) return null;
  let [line, lengthBefore] = [0, 0];
  for (; lengthBefore + lines[line].length < MAX_STORED_LENGTH; line++) lengthBefore += lines[line].length + 1;
  const message = say.textTooLong(MAX_STORED_LENGTH.toLocaleString("en"), length.toLocaleString("en"));
  const from = Math.max(0, MAX_STORED_LENGTH - lengthBefore - 1);
  return { number: TEXT_TOO_LONG, line: line + 1, from, to: lines[line].length, words: message };
}

/**
 * Returns whether the range of an error overlaps or touches a range.
 * @param {TextError} error
 * @param {Range} range
 */
function touchesRange({ line, from, to }, { start, end }) {
  const lineIndex = line - 1;
  const startsBefore = lineIndex < end.line || (lineIndex === end.line && from <= end.character);
  const endsAfter = lineIndex > start.line || (lineIndex === start.line && to >= start.character);
  return startsBefore && endsAfter;
}

/**
 * Returns the quick fixes for the errors in a range: one for each suggested replacement of a wrong word.
 * @param {string} uri
 * @param {TextError[]} errors
 * @param {Range} range
 */
export function createQuickFixes(uri, errors, range) {
  return errors.filter((error) => touchesRange(error, range)).flatMap((error) => {
    const replacements = error.quickFixTexts || [];
    return replacements.map((newText) => ({
      title: say.quickFixTitle(newText),
      kind: "quickfix",
      diagnostics: [toDiagnostic(error)],
      isPreferred: replacements.length === 1,
      edit: { changes: { [uri]: [{ range: rangeInLine(error.line, error.from, error.to), newText }] } },
    }));
  });
}
