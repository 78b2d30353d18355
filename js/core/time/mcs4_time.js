// The durations of a 4004's cycle, of a screen frame and of key presses, and the time constant of human vision. Each name contains its
// unit.

/** The duration of a cycle in tenths of a microsecond: eight clock periods of 1.35 microseconds. */
export const CYCLE_TENTHS_US = 108;
export const CYCLE_US = CYCLE_TENTHS_US / 10;
/** The duration of a cycle in milliseconds. A single division yields the floating-point number nearest to 0.0108. */
export const CYCLE_MS = CYCLE_TENTHS_US / 10000;
/** The number of cycles per second: 92,592.6, rounded. */
export const CYCLES_PER_SECOND = 92593;

/** The duration of a frame at 60 frames per second, and the number of whole cycles in it. */
export const FRAME_MS = 1000 / 60;
export const FRAME_CYCLES = 1543;

/** The time constant of human vision: after this time, the eye perceives 63 % (1 - 1/e) of a change in brightness. */
export const EYE_PERSISTENCE_MS = 30;
export const EYE_PERSISTENCE_CYCLES = 2778;

/** The minimum time for which a key on the page is down (43 ms), and then up (22 ms). */
export const KEY_DOWN_CYCLES = 4000;
export const KEY_UP_CYCLES = 2000;
/**
 * The times for which tests and tools hold a key down (43 ms), and then leave it up (173 ms). They are long enough for a program that polls
 * its keys.
 */
export const TOOL_KEY_DOWN_CYCLES = 4000;
export const TOOL_KEY_UP_CYCLES = 16000;
/** The delay before the first key press in a script: 22 ms. */
export const CYCLES_BEFORE_KEYS = 2000;

/**
 * Converts milliseconds to cycles, rounded to the nearest cycle.
 * @param {number} milliseconds
 */
export function cyclesFromMilliseconds(milliseconds) {
  return Math.floor(milliseconds / CYCLE_MS + 0.5);
}
