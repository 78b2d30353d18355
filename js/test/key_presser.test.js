// Tests key presses by touch: taps, long presses, swipes and several fingers, while the machine is running and while it is paused.

import assert from "node:assert/strict";
import test from "node:test";
import { keyLine, matrixKey, formatKey } from "../core/board/key_place.js";
import { KeyPresser } from "../page/board/key_presser.js";

global.window = global;

/** A stand-in for a key's button, with the members that KeyPresser uses. */
class FakeButton extends EventTarget {
  setPointerCapture() {}

  fire(type, properties = {}) {
    const event = { button: 0, pointerId: 1, pointerType: "touch", ...properties };
    this.dispatchEvent(Object.assign(new Event(type, { cancelable: true }), event));
  }
}

/** Returns the buttons of two keys of a KeyPresser, the keys that are down, and the bench commands for its presses and releases. */
function createPresser(isRunning) {
  const downKeys = new Set();
  const lines = [];
  const record = (word, key) => {
    lines.push(keyLine(word, key));
    if (word === "press") downKeys.add(formatKey(key));
    else downKeys.delete(formatKey(key));
  };
  const presser = new KeyPresser({
    queuesKeyChanges: () => isRunning,
    isDown: (key) => downKeys.has(formatKey(key)),
    press: (key) => record("press", key),
    release: (key) => record("release", key),
    change: record,
    keyForEvent: () => undefined,
  });
  const buttons = [matrixKey(0, 0), matrixKey(0, 1)].map((key) => {
    const button = new FakeButton();
    presser.listenToButton(button, { key });
    return button;
  });
  return { lines, downKeys, buttons };
}

const wait = (time) => new Promise((resolve) => setTimeout(resolve, time));
const LONG_PRESS_MS = 120;

for (const isRunning of [true, false]) {
  const condition = isRunning ? "while running" : "while paused";

  test(`a swipe that begins on a key does not press it, ${condition}`, async () => {
    const { lines, buttons } = createPresser(isRunning);
    buttons[0].fire("pointerdown");
    buttons[0].fire("pointercancel");
    buttons[0].fire("lostpointercapture");
    await wait(LONG_PRESS_MS);
    assert.deepEqual(lines, []);
  });

  test(`a slow swipe releases the key that it has pressed, ${condition}`, async () => {
    const { lines, downKeys, buttons } = createPresser(isRunning);
    buttons[0].fire("pointerdown");
    await wait(LONG_PRESS_MS);
    assert.deepEqual(lines, ["press 0 0"]);
    buttons[0].fire("pointercancel");
    buttons[0].fire("lostpointercapture");
    assert.deepEqual([lines, downKeys.size], [["press 0 0", "release 0 0"], 0]);
  });

  test(`a slow swipe over a held key leaves the key down, ${condition}`, async () => {
    const { downKeys, buttons } = createPresser(isRunning);
    downKeys.add("0 0");
    buttons[0].fire("pointerdown");
    await wait(LONG_PRESS_MS);
    assert.equal(downKeys.size, 0);
    buttons[0].fire("pointercancel");
    assert.deepEqual([...downKeys], ["0 0"]);
  });
}

test("the click event after a tap does not press the key again", () => {
  const { lines, buttons } = createPresser(true);
  buttons[0].fire("pointerdown");
  buttons[0].fire("pointerup");
  buttons[0].fire("click", { detail: 0 });
  assert.deepEqual(lines, ["press 0 0", "release 0 0"]);
});

test("a tap presses and releases a key", () => {
  const { lines, buttons } = createPresser(true);
  buttons[0].fire("pointerdown");
  buttons[0].fire("pointerup");
  buttons[0].fire("lostpointercapture");
  assert.deepEqual(lines, ["press 0 0", "release 0 0"]);
});

test("two fingers hold two keys", async () => {
  const { lines, downKeys, buttons } = createPresser(true);
  buttons[0].fire("pointerdown", { pointerId: 1 });
  buttons[1].fire("pointerdown", { pointerId: 2 });
  await wait(LONG_PRESS_MS);
  assert.deepEqual([...downKeys], ["0 0", "0 1"]);
  buttons[0].fire("pointerup", { pointerId: 1 });
  buttons[1].fire("pointerup", { pointerId: 2 });
  assert.deepEqual(lines, ["press 0 0", "press 0 1", "release 0 0", "release 0 1"]);
});

test("a mouse presses at once, and with Shift the key stays down", () => {
  const { lines, downKeys, buttons } = createPresser(true);
  buttons[0].fire("pointerdown", { pointerType: "mouse" });
  assert.deepEqual(lines, ["press 0 0"]);
  buttons[0].fire("pointerup", { pointerType: "mouse" });
  buttons[1].fire("pointerdown", { pointerType: "mouse", shiftKey: true });
  buttons[1].fire("pointerup", { pointerType: "mouse", shiftKey: true });
  assert.deepEqual([...downKeys], ["0 1"]);
});

test("while time is paused, a tap toggles a key", () => {
  const { lines, buttons } = createPresser(false);
  for (let tap = 0; tap < 2; tap++) {
    buttons[0].fire("pointerdown");
    buttons[0].fire("pointerup");
  }
  assert.deepEqual(lines, ["press 0 0", "release 0 0"]);
});
