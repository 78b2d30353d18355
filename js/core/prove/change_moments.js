// Chooses the moments at which inputs change, so that a program reads given levels. Keeps a minimum time between changes and a maximum
// length of presses.

/**
 * @typedef {import("../explore/search_inputs.js").Input} Input
 * @typedef {import("../explore/walks.js").WalkStep} WalkStep
 *
 * A change of one or several inputs in the same cycle. `released` and `pressed` are the indices of the inputs that go up and down. `first`
 * and `last` are the first and the last moment at which they can change. A moment is a number of cycles since power-on.
 * @typedef {{ released: number[], pressed: number[], first: number, last: number }} Change
 *
 * A completed press: the index of the change at which a key goes down (-1 if it is down at power-on), and of the one at which it goes up.
 * @typedef {{ start: number, end: number }} Press
 */

/**
 * Returns all completed presses: those with a release in `changes`.
 * @param {Change[]} changes
 * @param {Input[]} inputs
 * @returns {Press[]}
 */
function listPresses(changes, inputs) {
  return [...inputs.entries()].filter(([, { canBePressed }]) => canBePressed).flatMap(([index]) => {
    let start = -1;
    return changes.flatMap(({ released, pressed }, at) => {
      if (pressed.includes(index)) start = at;
      return released.includes(index) ? [{ start, end: at }] : [];
    });
  });
}

/**
 * Returns moments for the changes, at least `minWait` cycles apart, so that no completed press is longer than `maxPressTime`. Returns the
 * latest such moments, or null if there are none.
 *
 * Each limit says that one moment is at most another one plus a constant. The algorithm of Bellman and Ford therefore decides whether there
 * are such moments. It begins with the latest permitted moment of each change, and repeatedly lowers the moments that exceed a limit. No
 * moment becomes lower than in any solution, so the result is the latest solution. The presses that are not completed are therefore as
 * short as possible. If there is a solution, the algorithm needs at most as many passes as there are changes.
 * @param {Change[]} changes in the order in which they happen
 * @param {Input[]} inputs
 * @param {number} minWait
 * @param {number} maxPressTime
 * @returns {number[] | null}
 */
export function findLatestMoments(changes, inputs, minWait, maxPressTime) {
  const presses = maxPressTime === Infinity ? [] : listPresses(changes, inputs);
  const moments = changes.map(({ last }) => last);
  for (let pass = 0; pass <= changes.length; pass++) {
    const previousMoments = [...moments];
    for (let at = changes.length - 2; at >= 0; at--) moments[at] = Math.min(moments[at], moments[at + 1] - minWait);
    for (const { start, end } of presses) moments[end] = Math.min(moments[end], (start < 0 ? 0 : moments[start]) + maxPressTime);
    if (moments.some((moment, at) => moment < changes[at].first)) return null;
    if (moments.every((moment, at) => moment === previousMoments[at])) return moments;
  }
  return null;
}

/**
 * Returns the steps that make changes at the given moments. In each change, inputs go up before others go down.
 * @param {Change[]} changes
 * @param {number[]} moments
 * @returns {WalkStep[]}
 */
export function createSteps(changes, moments) {
  let time = 0;
  return changes.flatMap(({ released, pressed }, at) => {
    const inputChanges = [...released.map((input) => ({ kind: /** @type {const} */ ("up"), input })),
      ...pressed.map((input) => ({ kind: /** @type {const} */ ("down"), input }))];
    return inputChanges.map((move) => {
      const wait = moments[at] - time;
      time = moments[at];
      return { wait, ...move };
    });
  });
}
