// Tests the routes of wires in the picture of a board: no part hides a wire. After random moves of the parts, almost no part does.
import assert from "node:assert/strict";
import { test } from "node:test";
import { readBoard } from "../core/bench/answers.js";
import { isCurveCovered, pathText, routeWire } from "../core/board/wire_routes.js";
import { layOutBoard } from "../core/board/wiring.js";

/** Returns a board with the maximum number of chips, chains, keys and lamps. */
function createLargestBoard() {
  const lines = ["board"];
  for (let chip = 0; chip < 16; chip++) lines.push("[[rom]]", `chip = ${chip}`, `port = "${chip % 2 ? "iiii" : "0000"}"`);
  for (let bank = 0; bank < 8; bank++) lines.push("[[ram]]", `bank = ${bank}`, "chips = 4");
  for (let chain = 0; chain < 4; chain++) lines.push("[[chain]]", `clock = "rom0.${chain}"`, `data = "rom2.${chain}"`, "chips = 8");
  lines.push("[keys]", "chain = 0", "first = 0", "rows = 10",
    `columns = [${[1, 3].flatMap((rom) => [0, 1, 2, 3].map((line) => `"rom${rom}.${line}"`)).join(", ")}]`);
  for (let lamp = 0; lamp < 64; lamp++) {
    lines.push("[[lamp]]", `line = "${lamp % 2 ? `chain${lamp % 4}.${lamp + 15}` : `ram${lamp % 8}.0.${lamp % 4}`}"`);
  }
  return readBoard(lines);
}

const SMALL_BOARD = readBoard(["board", "[[rom]]", "chip = 1", 'port = "iiii"', "[[chain]]", 'clock = "rom0.0"', 'data = "rom0.1"',
  "chips = 4", "[keys]", "chain = 0", "first = 0", "rows = 4", 'columns = ["rom1.0", "rom1.1"]']);

for (const [name, board] of Object.entries({ "a small board": SMALL_BOARD, "the largest board": createLargestBoard() })) {
  test(`${name}: no wire is hidden by a part, and each wire ends at its pin`, () => {
    const { parts, wires } = layOutBoard(board);
    assert.ok(wires.length > 0);
    wires.forEach((wire, index) => {
      const route = routeWire(wire, parts, index);
      for (const curve of route) for (const part of parts) assert.ok(!isCurveCovered(curve, part), `${wire.line} below ${part.id}`);
      assert.deepEqual([route[0][0], route[route.length - 1][3]], [wire.from, wire.to]);
      for (let next = 1; next < route.length; next++) assert.deepEqual(route[next][0], route[next - 1][3]);
    });
  });
}

/** Returns a function that returns a pseudo-random number below its argument. The same seed gives the same numbers. */
function createRandom(seed) {
  let state = seed;
  return (limit) => {
    state = (Math.imul(state, 1103515245) + 12345) >>> 0;
    return (state >>> 8) % limit;
  };
}

test("after parts were moved at random, almost no wire is hidden by a part", () => {
  let [hiddenCount, directHiddenCount] = [0, 0];
  for (let seed = 1; seed <= 40; seed++) {
    const randomBelow = createRandom(seed);
    const shuffledParts = layOutBoard(SMALL_BOARD).parts.map(({ id, height }) => ({ id, height, rank: randomBelow(1000) }))
      .sort((a, b) => a.rank - b.rank);
    const positions = new Map();
    let y = 20;
    shuffledParts.forEach(({ id, height }) => {
      positions.set(id, { x: 20 + 220 * randomBelow(4) + randomBelow(30), y });
      y += height + 24;
    });
    const { parts, wires } = layOutBoard(SMALL_BOARD, undefined, positions);
    const isHidden = (route) => route.some((curve) => parts.some((part) => isCurveCovered(curve, part)));
    wires.forEach((wire, index) => {
      hiddenCount += Number(isHidden(routeWire(wire, parts, index)));
      directHiddenCount += Number(isHidden(routeWire(wire, [], index)));
    });
  }
  // A wire may cross a part if a route around the part would need two more bends.
  assert.ok(hiddenCount <= 3 && directHiddenCount > 150, `${hiddenCount} of ${directHiddenCount}`);
});

test("a wire is one curve if nothing is in between, or if there is no space for bends", () => {
  const ends = { from: { x: 0, y: 0 }, to: { x: 100, y: 50 } };
  assert.equal(pathText(routeWire(ends, [], 0)), "M0 0C50 0 50 50 100 50");
  assert.equal(pathText(routeWire({ from: { x: 5, y: 0 }, to: { x: 5, y: 9 } }, [], 0)), "M5 0C17 0 17 9 5 9");
  assert.equal(routeWire(ends, [{ x: 4, y: 0, width: 92, height: 60 }], 0).length, 1);
  assert.equal(routeWire(ends, [{ x: 40, y: 0, width: 20, height: 60 }], 0).length, 3);
});
