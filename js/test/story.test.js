// Tests the stories of the examples. Each link must be valid and must name a part of the example.
import assert from "node:assert/strict";
import { readFileSync, readdirSync } from "node:fs";
import { test } from "node:test";
import { matrixKey } from "../core/board/key_place.js";
import { parsePlace } from "../core/conditions/places.js";
import { Face } from "../core/board/face.js";
import { parseStory } from "../core/help/story.js";
import { runAction } from "../core/help/story_actions.js";
import { readRequestedStory } from "../page/session/address.js";

const EXAMPLES = new URL("../../examples/", import.meta.url);
const stories = readdirSync(EXAMPLES, { recursive: true }).filter((name) => name.endsWith(".story"));
const readExample = (name) => readFileSync(new URL(name, EXAMPLES), "utf8");
const actionsOf = (steps) => (
  steps.flatMap(({ paragraphs }) => paragraphs.flat()).filter((part) => typeof part !== "string").map(({ action }) => action));

test("a story is parsed into steps, paragraphs and links", () => {
  const firstStep = "## One\n\nPress [5](press 5)\nand [go\non](run to add_up).\n\nThen [?](fly), [x](show nothing).\n\n";
  const steps = parseStory(`# All\n\n${firstStep}## Two\n`);
  assert.deepEqual(steps.map(({ title, paragraphs }) => [title, paragraphs]), [
    ["One", [
      [
        "Press ", { linkText: "5", action: { name: "press", argument: "5" } }, " and ",
        { linkText: "go on", action: { name: "run to", argument: "add_up" } }, ".",
      ],
      ["Then ", "?", ", ", "x", "."],
    ]],
    ["Two", []],
  ]);
  assert.deepEqual(parseStory("no story"), []);
});

for (const name of stories) {
  test(`each link of ${name} is valid`, () => {
    const text = readExample(name);
    const folder = name.slice(0, name.lastIndexOf("/") + 1);
    const program = readExample(name.replace(/story$/, "asm"));
    const keys = [...new Face(readExample(`${folder}board.toml`)).keys.values()].map((keyText) => keyText.text);
    const actions = actionsOf(parseStory(text));
    // Each `](` belongs to a valid link.
    assert.equal(actions.length, text.split("](").length - 1);
    for (const { name: actionName, argument } of actions) {
      if (actionName === "go to" || actionName === "run to") assert.match(program, new RegExp(`^${argument}:`, "m"));
      if (actionName === "press" || actionName === "release") assert.ok(keys.includes(argument), argument);
      if (actionName === "back to") assert.ok(parsePlace(argument), argument);
    }
  });
}

test("an action calls the page, or returns the reason why it cannot", async () => {
  const recordedCalls = [];
  const recordCall = (name) => (...words) => {
    recordedCalls.push([name, ...words]);
  };
  const key = { legend: "7", key: matrixKey(0, 0) };
  let isDown = false;
  let isRunning = false;
  const calls = {
    isDown: () => isDown, isRunning: () => isRunning,
    addressOf: (label) => ({ turn: 2 })[label], keys: () => [key], run: recordCall("run"), pause: recordCall("pause"),
      runToGoal: recordCall("runToGoal"),
    goBack: recordCall("goBack"), goForward: recordCall("goForward"), goTo: recordCall("goTo"), press: recordCall("press"),
      showText: recordCall("showText"),
    showPanel: recordCall("showPanel"),
  };
  for (const [name, argument = ""] of [
    ["run"], ["stop"], ["back"], ["forward"], ["go to", "turn"], ["run to", "turn"], ["back to", "r11"], ["press", "7"],
    ["show", "waves"], ["show", "memory"],
  ]) assert.equal(await runAction({ name, argument }, calls), "");
  assert.deepEqual(recordedCalls, [
    ["run"], ["pause"], ["goBack", { kind: "stop" }], ["goForward"], ["goTo", 2], ["runToGoal", { kind: "here", address: 2 }],
    ["goBack", { kind: "change", place: "r11" }], ["press", key], ["showText", "waves"], ["showPanel", "memory"],
  ]);
  recordedCalls.length = 0;
  assert.match(await runAction({ name: "run to", argument: "nowhere" }, calls), /no label nowhere/);
  assert.match(await runAction({ name: "press", argument: "8" }, calls), /no key 8/);
  assert.match(await runAction({ name: "release", argument: "8" }, calls), /no key 8/);
  // While the machine is paused, `release` has no effect on a key that is up, and `press` has none on a key that is down.
  await runAction({ name: "release", argument: "7" }, calls);
  isDown = true;
  await runAction({ name: "press", argument: "7" }, calls);
  assert.deepEqual(recordedCalls, []);
  await runAction({ name: "release", argument: "7" }, calls);
  isRunning = true;
  await runAction({ name: "press", argument: "7" }, calls);
  assert.deepEqual(recordedCalls, [["press", key], ["press", key]]);
});

test("the story is read from an address", () => {
  assert.equal(readRequestedStory("?story=printing%20calculator"), "printing calculator");
  assert.equal(readRequestedStory("?story=printing_calculator"), "printing calculator");
  assert.equal(readRequestedStory("?other=1"), "");
});
