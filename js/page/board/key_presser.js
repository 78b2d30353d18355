// Key presses by pointer and keyboard, while time is running and while it is paused.

import { formatKey } from "../../core/board/key_place.js";

/**
 * @typedef {import("../../core/board/board_keys.js").BoardKey} BoardKey
 * @typedef {import("../../core/board/key_place.js").Key} Key
 */

/**
 * The callbacks of KeyPresser.
 * @typedef {object} KeyPresserCalls
 * @property {() => boolean} queuesKeyChanges Returns true if presses and releases are queued, because time is running and is not very slow.
 *   Otherwise, each press toggles the key.
 * @property {(key: Key) => boolean} isDown Returns true if a key will be down after all queued presses and releases.
 * @property {(key: Key) => void} press Queues a press of a key.
 * @property {(key: Key) => void} release Queues a release of a key.
 * @property {(word: "press" | "release", key: Key) => void} change Presses or releases a key at once. Called while `queuesKeyChanges`
 *   returns false.
 * @property {(event: KeyboardEvent) => BoardKey | undefined} keyForEvent Returns the board's key for a keyboard event. Returns undefined if
 *   there is none, or if another element handles the event.
 */

/**
 * A board key that the user holds with a pointer or a keyboard key. If `staysDown` is true, the board key stays down when the user lets go.
 * `undoPress` returns the board key to its state before the press.
 * @typedef {{ key: Key, staysDown: boolean, undoPress: () => void }} HeldKey
 */

/** The delay in milliseconds before a touch presses a key. Within this time the browser recognises a scroll gesture. */
const SWIPE_DELAY_MS = 60;
/** The time in milliseconds after the end of a pointer press during which a click belongs to that press and is ignored. */
const TAP_CLICK_MS = 500;

export class KeyPresser {
  /** @param {KeyPresserCalls} calls */
  constructor(calls) {
    this.calls = calls;
    /** @type {Map<string, HeldKey>} the board keys that the user holds, by key name */
    this.heldKeys = new Map();
    /** @type {Map<number, number>} the timers of touches that may still become swipes, by pointer id */
    this.touchTimers = new Map();
  }

  /** Forgets all held keys and pending touches. Called after the board's keys have changed. */
  forgetKeys() {
    this.heldKeys.clear();
    for (const timer of this.touchTimers.values()) clearTimeout(timer);
    this.touchTimers.clear();
  }

  /**
   * @param {HTMLButtonElement} button
   * @param {BoardKey} boardKey
   */
  listenToButton(button, boardKey) {
    const { key } = boardKey;
    let pointerUpTime = -Infinity;
    button.addEventListener("pointerdown", (event) => {
      if (event.button !== 0) return;
      event.preventDefault();
      button.setPointerCapture(event.pointerId);
      if (event.pointerType === "touch") this.pressLater(event.pointerId, boardKey);
      else this.pressOrRelease(boardKey, event.shiftKey);
    });
    button.addEventListener("pointerup", (event) => {
      pointerUpTime = event.timeStamp;
      // A tap shorter than SWIPE_DELAY_MS has not pressed the key yet.
      if (this.cancelTouch(event.pointerId)) this.pressOrRelease(boardKey, false);
      this.endPress(key);
    });
    button.addEventListener("pointercancel", (event) => {
      if (!this.cancelTouch(event.pointerId)) this.undoPress(key);
    });
    button.addEventListener("lostpointercapture", () => this.endPress(key));
    button.addEventListener("contextmenu", (event) => event.preventDefault());
    button.addEventListener("keydown", (event) => this.performOnActivation(event, () => this.pressOrRelease(boardKey, event.shiftKey)));
    button.addEventListener("keyup", (event) => this.performOnActivation(event, () => this.endPress(key)));
    // A click without a pointer or a keyboard, for example from a screen reader, presses and releases the key.
    button.addEventListener("click", (event) => {
      if (event.detail !== 0 || event.timeStamp - pointerUpTime < TAP_CLICK_MS) return;
      if (event instanceof PointerEvent && event.pointerId > 0) return;
      this.pressOrRelease(boardKey, false);
      this.endPress(key);
    });
  }

  /**
   * Performs an action if the event is for Enter or Space, the keys that activate a button. Ignores the repeats of a held key.
   * @param {KeyboardEvent} event
   * @param {() => void} action
   */
  performOnActivation(event, action) {
    if (event.key !== " " && event.key !== "Enter") return;
    event.preventDefault();
    event.stopPropagation();
    if (!event.repeat) action();
  }

  /**
   * Presses a key after SWIPE_DELAY_MS, unless the touch ends or becomes a swipe first.
   * @param {number} pointer
   * @param {BoardKey} boardKey
   */
  pressLater(pointer, boardKey) {
    this.touchTimers.set(pointer, window.setTimeout(() => {
      this.touchTimers.delete(pointer);
      this.pressOrRelease(boardKey, false);
    }, SWIPE_DELAY_MS));
  }

  /**
   * Cancels the delayed key press of a touch. Returns true if the touch had not yet pressed its key.
   * @param {number} pointer
   */
  cancelTouch(pointer) {
    clearTimeout(this.touchTimers.get(pointer));
    return this.touchTimers.delete(pointer);
  }

  /**
   * Presses a key, or releases it if it is already down. A switch stays down until it is pressed again. So does a key that is pressed with
   * Shift, or while time is paused or very slow.
   * @param {Pick<BoardKey, "key" | "isSwitch">} boardKey
   * @param {boolean} isShiftDown
   */
  pressOrRelease({ key, isSwitch }, isShiftDown) {
    const name = formatKey(key);
    if (this.heldKeys.has(name)) return;
    const isDown = this.calls.isDown(key);
    const { change, press, release } = this.calls;
    if (!this.calls.queuesKeyChanges()) {
      change(isDown ? "release" : "press", key);
      this.heldKeys.set(name, { key, staysDown: true, undoPress: () => change(isDown ? "press" : "release", key) });
    } else if (isDown) {
      // An earlier press left the key down.
      release(key);
      this.heldKeys.set(name, { key, staysDown: true, undoPress: () => press(key) });
    } else {
      press(key);
      this.heldKeys.set(name, { key, staysDown: isShiftDown || isSwitch, undoPress: () => release(key) });
    }
  }

  /**
   * Undoes the press of a touch that became a swipe.
   * @param {Key} key
   */
  undoPress(key) {
    const name = formatKey(key);
    const heldKey = this.heldKeys.get(name);
    this.heldKeys.delete(name);
    if (heldKey) heldKey.undoPress();
  }

  /**
   * Ends a press of a key: releases the key unless it stays down. If time was paused during the press, the release takes effect when time
   * resumes.
   * @param {Key} key
   */
  endPress(key) {
    const name = formatKey(key);
    const heldKey = this.heldKeys.get(name);
    if (heldKey === undefined) return;
    this.heldKeys.delete(name);
    if (!heldKey.staysDown) this.calls.release(key);
  }

  releaseAll() {
    for (const { key } of [...this.heldKeys.values()]) this.endPress(key);
  }

  /** Lets the computer's keyboard press the board's keys. `keyForEvent` ignores keyboard events that another element handles. */
  listenToKeyboard() {
    /** @type {Map<string, Key>} */
    const keysByCode = new Map();
    addEventListener("keydown", (event) => {
      const boardKey = this.calls.keyForEvent(event);
      if (!boardKey) return;
      event.preventDefault();
      if (event.repeat || keysByCode.has(event.code)) return;
      keysByCode.set(event.code, boardKey.key);
      this.pressOrRelease(boardKey, false);
    });
    addEventListener("keyup", (event) => {
      const key = keysByCode.get(event.code);
      keysByCode.delete(event.code);
      if (key !== undefined) this.endPress(key);
    });
    // The page does not receive key releases after it has lost focus.
    addEventListener("blur", () => {
      keysByCode.clear();
      this.releaseAll();
    });
  }
}

/**
 * Returns true if an element handles a keyboard key itself.
 * @param {EventTarget | null} target
 * @param {string} keyName
 */
export function handlesKey(target, keyName) {
  if (!(target instanceof Element)) return false;
  if (target.matches("input:not([type=checkbox]), textarea, select") || target.closest("[contenteditable]")) return true;
  return target.matches("button, summary, a, input") && (keyName === "Enter" || keyName === " ");
}
