import assert from "node:assert/strict";
import { mock, test } from "node:test";
import { Announcer, ANNOUNCEMENT_DELAY_MS } from "../core/board/announcer.js";

test("a text is announced after it has stayed unchanged for a while, but the initial text is not", () => {
  mock.timers.enable({ apis: ["setTimeout"] });
  const announcements = [];
  const announcer = new Announcer((text) => announcements.push(text));
  announcer.begin();
  announcer.announce("0");
  mock.timers.tick(3 * ANNOUNCEMENT_DELAY_MS);
  assert.deepEqual(announcements, []);
  for (let count = 1; count <= 100; count++) {
    announcer.announce(String(count));
    mock.timers.tick(ANNOUNCEMENT_DELAY_MS / 10);
  }
  assert.deepEqual(announcements, []);
  mock.timers.tick(2 * ANNOUNCEMENT_DELAY_MS);
  assert.deepEqual(announcements, ["100"]);
  announcer.announce("5");
  announcer.announce("100");
  mock.timers.tick(3 * ANNOUNCEMENT_DELAY_MS);
  assert.deepEqual(announcements, ["100"]);
  mock.timers.reset();
});
