// Parses the answers to `wiring` and `errors`. The query `wiring` checks a board text, and `errors` checks a program text. Neither changes
// the session.

/**
 * The error in a board text.
 * @typedef {object} BoardError
 * @property {number} number the error number, as in the answer to `wire`
 * @property {number} line the line number from 1; 0 if the answer has none
 * @property {string} section the name of the wrong table, such as `lamp`; "" for a key outside tables and for invalid TOML
 * @property {number} index the number of the table among tables with the same name, from 1; 0 if the answer has none
 * @property {string} key the wrong key; "" if the error is in the table itself
 *
 * The error in a program line: the line number from 1, and the bench's error number.
 * @typedef {{ line: number, number: number }} LineError
 */

/** The maximum number of errors that the bench reports for a program. */
export const MAX_ERRORS = 100;
const WIRING_REFUSAL = /^no (\d+)(?: line (\d+))?(?: (rom|ram|chain|keys|lamp))?(?: (\d+))?(?: key (\S+))?$/;

/**
 * Parses the answer to `wiring`. Returns null if the answer names no error.
 * @param {string} answer
 * @returns {BoardError | null}
 */
export function readWiring(answer) {
  const [, number, line, section = "", index, key = ""] = WIRING_REFUSAL.exec(answer) || [];
  return number ? { number: Number(number), line: Number(line || 0), section, index: Number(index || 0), key } : null;
}

/**
 * Parses the answer to `errors`. Returns an empty list if the text is valid.
 * @param {string[]} answers
 * @returns {LineError[]}
 */
export function readErrors(answers) {
  return answers.flatMap((answer) => {
    const [, line, number] = /^error (\d+) (\d+)$/.exec(answer) || [];
    return line ? [{ line: Number(line), number: Number(number) }] : [];
  });
}
