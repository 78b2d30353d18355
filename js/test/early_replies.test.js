// Tests early replies in browsers that have, lack or forbid broadcast channels.
import assert from "node:assert/strict";
import { test } from "node:test";
import { makeEarlySender } from "../page/bench/early_replies.js";

/** A sample early reply. */
const EARLY = { kind: /** @type {"early"} */ ("early"), number: 7, result: "lamps" };

test.afterEach(() => Reflect.deleteProperty(globalThis, "BroadcastChannel"));

test("a reply is sent to the channel with the given name", () => {
  const postedMessages = [];
  globalThis.BroadcastChannel = class {
    constructor(name) { this.name = name; }

    postMessage(message) { postedMessages.push([this.name, message]); }
  };
  makeEarlySender("one")(EARLY);
  assert.deepEqual(postedMessages, [["one", EARLY]]);
});

test("without a name, or if channels are missing or forbidden, nothing is sent and nothing fails", () => {
  globalThis.BroadcastChannel = class { constructor() { throw new Error("insecure"); } };
  makeEarlySender("one")(EARLY);
  makeEarlySender("")(EARLY);
  Reflect.deleteProperty(globalThis, "BroadcastChannel");
  makeEarlySender("one")(EARLY);
});
