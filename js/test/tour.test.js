import assert from "node:assert/strict";
import { test } from "node:test";
import { TOUR, TourProgress } from "../core/help/tour.js";

const beginStep = (stepIndex) => {
  const progress = new TourProgress();
  progress.begin(stepIndex);
  return progress;
};

test("the lamp step is done when the first lamp is on", () => {
  const progress = beginStep(0);
  progress.recordLamps("....");
  progress.recordLamps(".*..");
  assert.equal(progress.isDone, false);
  progress.recordLamps("*...");
  assert.equal(progress.isDone, true);
  progress.recordLamps("....");
  assert.equal(progress.isDone, true);
});

test("the count step is done after four different numbers", () => {
  const progress = beginStep(1);
  for (const lamps of ["....", "*...", ".*..", "*..."]) progress.recordLamps(lamps);
  assert.equal(progress.isDone, false);
  progress.recordLamps("**..");
  assert.equal(progress.isDone, true);
});

test("the key step is done when a lamp is on while a key is down", () => {
  const progress = beginStep(2);
  progress.recordLamps("..*.");
  assert.equal(progress.isDone, false);
  progress.recordKeys(1);
  assert.equal(progress.isDone, true);
});

test("the breakpoint and watch steps are done when a run ends with such a stop", () => {
  const progress = beginStep(3);
  progress.recordRunEnd("watch");
  assert.equal(progress.isDone, false);
  progress.recordRunEnd("break");
  assert.equal(progress.isDone, true);
  progress.begin(4);
  assert.equal(progress.isDone, false);
  progress.recordRunEnd("watch");
  assert.equal(progress.isDone, true);
});

test("there are five steps", () => assert.equal(TOUR.length, 5));
