// The capabilities of a terminal, derived from TERM and NO_COLOR.

/**
 * Returns true if a terminal cannot move its cursor.
 * @param {Record<string, string | undefined>} env
 */
export function isDumb({ TERM = "" }) {
  return /^(|dumb|unknown)$/.test(TERM);
}

/**
 * Returns a function that takes the code of a colour or style, and returns a function that applies this colour or style to text. If the terminal has
 * no colours, or if NO_COLOR is set, the text stays unchanged.
 * @param {Record<string, string | undefined>} env
 * @returns {(code: number) => (text: string) => string}
 */
export function makePainter(env) {
  const isPlain = isDumb(env) || Boolean(env.NO_COLOR);
  return (code) => (isPlain ? (text) => text : (text) => `\x1b[${code}m${text}\x1b[0m`);
}
