// Tests the marks on changed values. The page shows them while the machine is paused and removes them while it is running.

import assert from "node:assert/strict";
import test from "node:test";
import { Changes } from "../page/machine/changes.js";

/** Returns a stand-in for a cell of the page, with the members that Changes uses. */
function createFakeCell() {
  const classes = new Set();
  const cell = { text: "", node: { classList: classes }, set: (text) => cell.text !== text && ((cell.text = text), true) };
  classes.remove = classes.delete;
  cell.isMarked = () => classes.has("changed");
  return cell;
}

test("a value that differs from the previous stop is marked, however long ago it changed", () => {
  const changes = new Changes();
  const [firstCell, secondCell] = [createFakeCell(), createFakeCell()];
  for (const cell of [firstCell, secondCell]) changes.set(cell, "0");
  changes.markWhilePaused();
  assert.deepEqual([firstCell.isMarked(), secondCell.isMarked()], [false, false]);
  changes.set(firstCell, "5");
  for (let frame = 0; frame < 200; frame++) changes.clearWhileRunning();
  assert.equal(firstCell.isMarked(), false);
  changes.markWhilePaused();
  assert.deepEqual([firstCell.isMarked(), secondCell.isMarked()], [true, false]);
});

test("a value that has changed back is not marked", () => {
  const changes = new Changes();
  const cell = createFakeCell();
  changes.set(cell, "1");
  changes.set(cell, "2");
  changes.clearWhileRunning();
  changes.set(cell, "1");
  changes.markWhilePaused();
  assert.equal(cell.isMarked(), false);
});

test("marks stay while nothing happens, and disappear when the machine runs", () => {
  const changes = new Changes();
  const cell = createFakeCell();
  changes.set(cell, "1");
  changes.set(cell, "2");
  changes.markWhilePaused();
  changes.markWhilePaused();
  assert.equal(cell.isMarked(), true);
  changes.clearWhileRunning();
  assert.equal(cell.isMarked(), false);
});

test("each stop compares values with the stop before it", () => {
  const changes = new Changes();
  const [firstCell, secondCell] = [createFakeCell(), createFakeCell()];
  for (const cell of [firstCell, secondCell]) changes.set(cell, "0");
  changes.set(firstCell, "1");
  changes.markWhilePaused();
  changes.set(secondCell, "1");
  changes.markWhilePaused();
  assert.deepEqual([firstCell.isMarked(), secondCell.isMarked()], [false, true]);
});

test("cells of a new board have no marks", () => {
  const changes = new Changes();
  const cell = createFakeCell();
  changes.set(cell, "1");
  changes.set(cell, "2");
  changes.markWhilePaused();
  changes.forgetCells();
  assert.equal(cell.isMarked(), false);
  changes.set(cell, "2");
  changes.markWhilePaused();
  assert.equal(cell.isMarked(), false);
  changes.set(cell, "3");
  changes.markWhilePaused();
  assert.equal(cell.isMarked(), true);
});
