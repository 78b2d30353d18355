// Tests the arrangement of the rows in the logic analyser, their measurements, and the saved picture.
import assert from "node:assert/strict";
import { test } from "node:test";
import { measureAt, describeMeasurement } from "../core/waves/measurement.js";
import { WaveRows } from "../core/waves/wave_rows.js";
import { WaveWindow } from "../core/waves/wave_window.js";
import { Waves } from "../core/waves/wave_recording.js";
import { toSvg } from "../page/waves/wave_pictures.js";

const NAMES = ["a", "b", "c", "d", "e"];
const LINES = NAMES.map((name) => ({ name, title: "", group: "", kind: "level", places: [], members: [], width: 1 }));
const ALL_LINES = NAMES.map((_, line) => line);
/** Returns the names of the rows as a single string. A group heading is written as `[NAME`, the heading of a folded group as `]NAME`. */
const rowsOf = (rows, chosen = ALL_LINES) => rows.arrange(LINES, chosen).map(({ line, name, group, isFolded }) => (
  line < 0 ? `${isFolded ? "]" : "["}${group}` : name)).join(" ");
/** Moves a row to the position of another row. Returns the rows as `rowsOf` formats them. */
function moveRow(rows, from, to, chosen = ALL_LINES) {
  rows.move(rows.arrange(LINES, chosen), rows.sortNames(chosen.map((line) => NAMES[line])), from, to);
  return rowsOf(rows, chosen);
}

test("rows have the order of the board until the user moves one; the other rows keep their order", () => {
  const rows = new WaveRows();
  assert.equal(rowsOf(rows), "a b c d e");
  assert.equal(moveRow(rows, 0, 2), "b c a d e");
  assert.equal(moveRow(rows, 4, 0), "e b c a d");
  assert.equal(rowsOf(rows, [0, 1]), "b a");
  assert.equal(moveRow(rows, 0, 1, [0, 1]), "a b");
  assert.equal(rowsOf(new WaveRows({ order: ["d", "a", "nowhere"] })), "d e a b c");
  assert.equal(moveRow(rows, 0, 9), rowsOf(rows));
});

test("a group has the position of its first row, can be folded, and moves as a whole", () => {
  const rows = new WaveRows();
  for (const name of ["b", "e"]) rows.changeAppearance(name, { group: "g" });
  assert.equal(rowsOf(rows), "a [g b e c d");
  rows.toggleFold("g");
  assert.equal(rowsOf(rows), "a ]g c d");
  assert.equal(moveRow(rows, 1, 3), "a c d ]g");
  assert.equal(moveRow(rows, 3, 0), "]g a c d");
  rows.toggleFold("g");
  assert.equal(rowsOf(rows), "[g b e a c d");
  assert.equal(moveRow(rows, 0, 1), "[g b e a c d");
});

test("a row can be moved into a group and out of it", () => {
  const rows = new WaveRows({ looks: { b: { group: "g" }, c: { group: "g" } } });
  assert.equal(rowsOf(rows), "a [g b c d e");
  assert.equal(moveRow(rows, 0, 1), "[g a b c d e");
  assert.equal(rows.groupOf("a"), "g");
  assert.equal(moveRow(rows, 3, 4), "[g a b d c e");
  assert.equal(rows.groupOf("c"), "");
  assert.equal(moveRow(rows, 1, 0), "a [g b d c e");
  assert.equal(rows.groupOf("a"), "");
  assert.equal(moveRow(rows, 4, 3), "a [g b c d e");
  assert.equal(rows.groupOf("c"), "");
  assert.equal(moveRow(rows, 3, 2), "a [g c b d e");
  assert.equal(rows.groupOf("c"), "g");
});

test("names and colours are stored by line name", () => {
  const rows = new WaveRows();
  rows.changeAppearance("b", { title: "clock" });
  rows.changeAppearance("b", { colour: "red" });
  rows.toggleFold("x");
  const storedRows = JSON.parse(JSON.stringify(rows.storedRows));
  assert.deepEqual(storedRows, { order: [], looks: { b: { title: "clock", colour: "red" } }, folded: ["x"] });
  assert.deepEqual(new WaveRows(storedRows).arrange(LINES, [1]), [
    { line: 1, name: "b", title: "clock", colour: "red", group: "", isFolded: false }]);
});

/** Returns a recording of lines that change at the given moments. */
function createWaves(changes, kind = "test", width = 1) {
  return new Waves({
    from: 0, cycles: 1000, isStuck: false, lines: [{ ...LINES[0], name: "<a & b>", kind, width }],
    tracks: [{ first: 1, moments: Uint32Array.from(changes), values: width > 1 ? Uint16Array.from(changes, (_, index) => index) : null }],
    moments: Uint32Array.of(0, 1), counters: Uint16Array.of(0, 1), isOwed: false, listing: [], program: null,
  });
}

test("a bit has a pulse width and a period", () => {
  const waves = createWaves([100, 400, 700]);
  assert.deepEqual(measureAt(waves, 0, 100), { from: 100, to: 400, isComplete: true, period: 600 });
  assert.deepEqual(measureAt(waves, 0, 399), measureAt(waves, 0, 100));
  assert.deepEqual(measureAt(waves, 0, 50), { from: 0, to: 100, isComplete: false, period: 0 });
  assert.deepEqual(measureAt(waves, 0, 500), { from: 400, to: 700, isComplete: true, period: 0 });
  assert.deepEqual(measureAt(waves, 0, 900), { from: 700, to: 1000, isComplete: false, period: 0 });
  assert.deepEqual(measureAt(createWaves([]), 0, 5), { from: 0, to: 1000, isComplete: false, period: 0 });
  assert.equal(describeMeasurement("0", measureAt(waves, 0, 100)), "0 for 300 cycles, 3.240 ms; period 600 cycles, 6.480 ms, 154.3 Hz");
  assert.equal(describeMeasurement("1", measureAt(waves, 0, 0)), "1 for at least 100 cycles, 1.080 ms");
  assert.match(describeMeasurement("1", { from: 0, to: 1, isComplete: true, period: 2 }), /, 46\.30 kHz$/);
});

test("a number has no period", () => {
  assert.deepEqual(measureAt(createWaves([100, 400, 700], "value", 4), 0, 100), { from: 100, to: 400, isComplete: true, period: 0 });
});

test("a saved picture has all rows with their names, and escapes markup", () => {
  const view = new WaveWindow(1000);
  view.width = 400;
  const names = ["ink", "faint", "grid", "sheet", "chosen", "first", "second", "measured", "red"];
  const colours = Object.fromEntries(names.map((name) => [name, name]));
  const waves = createWaves([100, 400, 700]);
  const rows = new WaveRows({ looks: { "<a & b>": { colour: "red", group: "lamps" } } }).arrange(waves.lines, [0]);
  const text = toSvg(
    { waves, rows, selectedIndex: 1, view, top: 0, gutter: 150, height: 78, trigger: 400, measured: null, colours, font: "" });
  assert.match(text, /^<svg xmlns="http:\/\/www\.w3\.org\/2000\/svg" width="550" height="78" [^]*<\/svg>\n$/);
  assert.match(text, />&#60;a &#38; b&#62;|>▸&#60;a &#38; b&#62;</);
  assert.match(text, /<path d="M150,57\.5L190,57\.5[^"]*" fill="none" stroke="red" stroke-width="1\.5"\/>/);
  assert.equal(text.split("<g ").length, text.split("</g>").length);
  assert.match(text, />\u25BE lamps</);
});
