import assert from "node:assert/strict";
import { readFileSync } from "node:fs";
import { test } from "node:test";
import { readBoard } from "../core/bench/answers.js";
import { partAtLine, partLineRanges } from "../core/bench/part_lines.js";
import { layOutBoard, isHigh, isHighAtRom } from "../core/board/wiring.js";
import { drawnPartLines } from "../core/drawing/drawn_part_lines.js";

const BOARD = ["board", "[[rom]]", "chip = 0", 'port = "0000"', "[[rom]]", "chip = 1", 'port = "iiii"', "[[ram]]", "bank = 0", "chips = 1",
  "[[chain]]", 'clock = "rom0.0"', 'data = "rom0.1"', "chips = 1", "[keys]", "chain = 0", "first = 0", "rows = 2",
  'columns = ["rom1.0", "rom1.1"]', "[[lamp]]", 'line = "ram0.0.0"', "[[lamp]]", 'line = "chain0.9"'];

test("each part of a board is drawn once, and no two parts overlap", () => {
  const { parts, width, height } = layOutBoard(readBoard(BOARD));
  assert.deepEqual(parts.map(({ id }) => id), ["processor", "rom 0", "rom 1", "ram 0.0", "chain 0", "keys", "lamps"]);
  for (const part of parts) {
    assert.ok(part.x >= 0 && part.x + part.width <= width && part.y + part.height <= height);
    for (const otherPart of parts.filter((candidate) => candidate !== part)) {
      const isApart = part.x + part.width <= otherPart.x || otherPart.x + otherPart.width <= part.x || part.y + part.height <= otherPart.y
        || otherPart.y + otherPart.height <= part.y;
      assert.ok(isApart, `${part.id} and ${otherPart.id}`);
    }
  }
});

test("a wire goes from the pin that drives a line, or that the line reads, to the pin that uses the line", () => {
  const { wires } = layOutBoard(readBoard(BOARD));
  assert.deepEqual(wires.map(({ line, to }) => `${line} ${to.label}`), ["rom0.0 clock", "rom0.1 data", "chain0.0 row 0", "chain0.1 row 1",
    "rom1.0 column 0", "rom1.1 column 1", "ram0.0.0 lamp 0", "chain0.9 lamp 1"]);
});

test("the description of a part states the uses of its lines", () => {
  const { parts } = layOutBoard(readBoard(BOARD), { names: ["red"], colours: ["green"], test: null, buzzer: null });
  const descriptionsOf = (id) => parts.find((part) => part.id === id).descriptions;
  const outputs = ["line rom0.0, an output, clocks chain 0", "line rom0.1, an output, is the data of chain 0"];
  assert.deepEqual(descriptionsOf("rom 0").slice(0, 2), outputs);
  assert.equal(descriptionsOf("rom 1")[2], "line rom1.2, an input, is not used");
  assert.deepEqual(parts.find(({ id }) => id === "lamps").pins.map(({ colour }) => colour), ["green", "red"]);
  assert.deepEqual(descriptionsOf("lamps"), ["red is at ram0.0.0", "lamp 1 is at chain0.9"]);
});

test("the component at TEST is a part with a wire to the processor, and has a description", () => {
  const appearance = { names: [], colours: [], test: { kind: "button", name: "CROSS_THE_ROAD", level: 0, line: 1 } };
  const { parts, wires } = layOutBoard(readBoard(["board"]), appearance);
  assert.deepEqual(parts.map(({ id, title }) => `${id} ${title}`), ["processor 4004", "test CROSS THE …"]);
  assert.deepEqual(wires.map(({ from, to }) => `${from.label} ${to.label}`), ["button TEST"]);
  assert.equal(parts[0].descriptions[1], "its input TEST is connected to the button CROSS THE ROAD");
  assert.deepEqual(parts[1].descriptions, ["the button CROSS THE ROAD sets TEST to 0 while it is pressed"]);
});

test("a buzzer is a part with a wire from its line", () => {
  const board = readBoard(["board", "[[rom]]", "chip = 0", 'port = "0000"']);
  const { parts, wires } = layOutBoard(board, { names: [], colours: [], test: null, buzzer: { place: "rom0.3", name: "the horn" } });
  assert.deepEqual(parts.map(({ title }) => title), ["4004", "ROM 0 · 4001", "Buzzer"]);
  assert.deepEqual(wires.map(({ from, to }) => `${from.label} ${to.label}`), ["out 3 the horn"]);
  assert.equal(parts[1].descriptions[3], "line rom0.3, an output, sounds the buzzer");
  assert.deepEqual(parts[2].descriptions, ["the horn sounds at each edge of rom0.3"]);
});

test("an empty board has a processor", () => {
  assert.deepEqual(layOutBoard(readBoard(["board"])).parts.map(({ id }) => id), ["processor"]);
});

test("the level of an input line is its read value, and the level of an output line is its latch value", () => {
  const levelsOf = (mask, portLevels) => [0, 1, 2, 3].map((line) => isHighAtRom(mask, portLevels, line));
  assert.deepEqual(levelsOf("0000", { out: "5", in: "0" }), [true, false, true, false]);
  assert.deepEqual(levelsOf("iiii", { out: "F", in: "2" }), [false, true, false, false]);
  assert.deepEqual(levelsOf("i0i1", { out: "9", in: "E" }), [true, true, false, true]);
  assert.deepEqual([0, 1, 2, 3].map((line) => isHigh("8", line)), [false, false, false, true]);
});

test("parts are found in a text in any TOML notation", () => {
  const text = '# a board\nlamp = [\n  { line = "ram0.0.0" }, { line = "ram0.0.1" },\n  { line = "chain0.3" },\n]\n\n[[rom]] # first\n'
    + 'chip = 0x0A\nport = "0000"\n\n[keys]\nchain = 0\nfirst = 0\nrows = 1\ncolumns = ["rom0.0"]\n\n'
    + '[[chain]]\nclock = "rom0.0"\ndata = "rom0.1"\n';
  const lines = partLineRanges(text);
  assert.deepEqual(Object.fromEntries(lines), {
    "lamp 0": { from: 3, to: 3 }, "lamp 1": { from: 3, to: 3 }, "lamp 2": { from: 4, to: 4 }, "rom 10": { from: 7, to: 9 },
    keys: { from: 11, to: 15 }, "chain 0": { from: 17, to: 19 },
  });
  assert.deepEqual([1, 3, 8, 18, 99].map((line) => partAtLine(lines, line)), ["", "lamp 0", "rom 10", "chain 0", ""]);
  assert.equal(partLineRanges("").size, 0);
});

test("the component at TEST is found in a comment", () => {
  const rom = '[[rom]]\nchip = 0\nport = "0000"\n';
  assert.deepEqual(Object.fromEntries(drawnPartLines(`${rom}# test: button Start\n`)),
    { "rom 0": { from: 1, to: 3 }, test: { from: 4, to: 4 } });
  assert.deepEqual([...drawnPartLines(rom).keys()], ["rom 0"]);
});

test("all parts of the calculator's board are found", () => {
  const text = readFileSync(new URL("../../examples/calculator/board.toml", import.meta.url), "utf8");
  const names = [...partLineRanges(text).keys()];
  assert.deepEqual(names.filter((name) => !name.startsWith("lamp")),
    ["rom 0", "rom 1", "rom 2", "rom 3", "ram 0", "chain 0", "chain 1", "keys"]);
  assert.equal(names.filter((name) => name.startsWith("lamp")).length, 43);
});
