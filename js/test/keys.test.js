import assert from "node:assert/strict";
import { test } from "node:test";
import { keyHint, findBoardKey, boardKeys } from "../core/board/board_keys.js";
import { Face } from "../core/board/face.js";
import { PressedKeys, isSameKey, parseKey, keyLine, matrixKey, pinKey, formatKey } from "../core/board/key_place.js";
import { KeyQueue, MAX_RUN_CYCLES } from "../core/engine/key_queue.js";
import { KEY_DOWN_CYCLES, KEY_UP_CYCLES } from "../core/time/mcs4_time.js";

const planLines = (queue, cycles) => queue.plan(cycles).map((step) => step.line);

test("legends come from the comments of a board's text", () => {
  const { keys } = new Face("# row 0: 7 8 _\n[keys]\n#row 1: a\n# row 2: WALK  x \n");
  assert.deepEqual([...keys].map(([key, { text }]) => [key, text]),
    [["0 0", "7"], ["0 1", "8"], ["0 2", ""], ["1 0", "a"], ["2 0", "WALK"], ["2 1", "x"]]);
});

test("each key has its own place, legend and letter", () => {
  const keys = boardKeys({ rows: 2, columns: 2 }, new Face("# row 0: CE _\n# row 1: C x\n"));
  assert.deepEqual(keys.map(({ key, legend, letter, isNamed }) => [formatKey(key), legend, letter, isNamed]),
    [["0 0", "CE", "c", true], ["0 1", "", "", false], ["1 0", "C", "C", true], ["1 1", "x", "x", true]]);
  assert.equal(new Set(boardKeys({ rows: 10, columns: 8 }, new Face("")).map(({ letter }) => letter).filter(Boolean)).size, 36);
});

test("keyboard keys match letters first, then named keys, then the other case", () => {
  const keys = boardKeys({ rows: 1, columns: 5 }, new Face("# row 0: = C c x .\n"));
  const legendOf = (character) => findBoardKey(keys, character)?.legend;
  assert.deepEqual(["Enter", "Escape", "c", "C", "X", ",", "Shift", "y"].map(legendOf),
    ["=", "C", "c", "C", "x", ".", undefined, undefined]);
});

test("the key at TEST is the last key, and has its own letter", () => {
  const keys = boardKeys({ rows: 1, columns: 1 }, new Face("# row 0: w\n# test: button WALK_NOW\n"));
  const expected = { key: pinKey(0), legend: "WALK NOW", description: "button WALK NOW, at TEST",
    isNamed: true, isSwitch: false, letter: "a" };
  assert.deepEqual(keys[1], expected);
  const [pinOnlyKey] = boardKeys({ rows: 0, columns: 0 }, new Face("# test: switch R to 1"));
  assert.deepEqual([pinOnlyKey.key, pinOnlyKey.isSwitch, pinOnlyKey.letter], [pinKey(1), true, "R"]);
});

test("key presses become session lines: keys by their places, TEST by its level", () => {
  const linesOf = (key) => [keyLine("press", key), keyLine("release", key)];
  assert.deepEqual(linesOf(matrixKey(0, 1)), ["press 0 1", "release 0 1"]);
  assert.deepEqual([pinKey(0), pinKey(1)].map(linesOf), [["test 0", "test 1"], ["test 1", "test 0"]]);
  const queue = new KeyQueue();
  queue.press(pinKey(0));
  queue.release(pinKey(0));
  assert.deepEqual(planLines(queue, 5000), ["test 0", `run ${KEY_DOWN_CYCLES}`, "test 1", "run 1000"]);
});

test("keys can be formatted, parsed and compared by value", () => {
  const keys = [matrixKey(0, 0), matrixKey(1, 0), matrixKey(0, 1), matrixKey(12, 7), pinKey(0), pinKey(1)];
  assert.deepEqual(keys.map((key) => parseKey(formatKey(key))), keys);
  for (const key of keys) for (const otherKey of keys) assert.equal(isSameKey(key, { ...otherKey }), key === otherKey);
  for (const text of ["", "0", "0.0", "0 0 0", " 0 0", "1234 0", "test", "test 2", "r4"]) assert.equal(parseKey(text), null, text);
});

test("the pressed keys are determined from an answer and the level of TEST", () => {
  const pressedKeys = new PressedKeys(["0.2", "12.7"]);
  assert.equal(pressedKeys.count, 2);
  assert.deepEqual([matrixKey(0, 2), matrixKey(12, 7), matrixKey(2, 0), matrixKey(1, 2)].map((key) => pressedKeys.has(key, "1")),
    [true, true, false, false]);
  assert.deepEqual([pressedKeys.has(pinKey(1), "1"), pressedKeys.has(pinKey(0), "1"), pressedKeys.has(pinKey(0), "")],
    [true, false, false]);
});

test("the hint below the keys reports a board without keys, or shows how to declare legends", () => {
  assert.equal(keyHint([]), "This board has no keys.");
  assert.match(keyHint(boardKeys({ rows: 1, columns: 1 }, new Face(""))), /# row 0: 7 8 9/);
  assert.doesNotMatch(keyHint(boardKeys({ rows: 1, columns: 1 }, new Face("# row 0: 7"))), /# row 0/);
});

test("without key changes, the cycles are split into runs of at most 100,000", () => {
  assert.deepEqual(planLines(new KeyQueue(), 1543), ["run 1543"]);
  assert.deepEqual(planLines(new KeyQueue(), 2 * MAX_RUN_CYCLES + 5), ["run 100000", "run 100000", "run 5"]);
});

test("a key stays down, and then up, for its full time, across several plans", () => {
  const queue = new KeyQueue();
  queue.press(matrixKey(0, 1));
  queue.release(matrixKey(0, 1));
  queue.press(matrixKey(0, 2));
  const steps = queue.plan(5000);
  assert.deepEqual(steps.map(({ line }) => line), ["press 0 1", `run ${KEY_DOWN_CYCLES}`, "release 0 1", "run 1000"]);
  queue.markExecuted(steps, (index) => [0, KEY_DOWN_CYCLES, 0, 1000][index]);
  assert.deepEqual(planLines(queue, 1500), [`run ${KEY_UP_CYCLES - 1000}`, "press 0 2", "run 500"]);
});

test("after a run that stops early, the key still waits for the remaining cycles", () => {
  const queue = new KeyQueue();
  queue.press(matrixKey(0, 1));
  queue.release(matrixKey(0, 1));
  const steps = queue.plan(3000);
  queue.markExecuted(steps, () => 10);
  assert.deepEqual(planLines(queue, 4000), [`run ${KEY_DOWN_CYCLES - 10}`, "release 0 1", "run 10"]);
});

test("the queued changes of one key, or of all keys, can be removed", () => {
  const queue = new KeyQueue();
  queue.press(matrixKey(0, 1));
  queue.press(matrixKey(0, 2));
  queue.forget(matrixKey(0, 1));
  assert.deepEqual(planLines(queue, 1), ["press 0 2", "run 1"]);
  queue.clear();
  assert.deepEqual(planLines(queue, 1), ["run 1"]);
});
