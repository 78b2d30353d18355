import assert from "node:assert/strict";
import { readFileSync } from "node:fs";
import { test } from "node:test";
import { readBoard } from "../core/bench/answers.js";
import { DisplayText } from "../core/board/display_text.js";
import { Face, findFaceErrors, moreErrorsMessage } from "../core/board/face.js";
import { missingPartErrors } from "../core/board/face_board.js";

/** Returns the contents of a sample file: the comments of a board (`NAME.face`), or the expected description of the front panel
 * (`NAME.expected`). */
const readSample = (name) => readFileSync(new URL(`../../checks/faces/${name}`, import.meta.url), "utf8");
const board = readBoard(["board", ...readSample("board.toml").trim().split("\n")]);

const displayTextOf = (face) => new DisplayText(
  face.groups.filter(({ kind }) => kind === "display"),
  [...face.lamps].map(([lamp, { text }]) => ({ lamp, text })),
);

/** Returns the description of a front panel, with one fact per line. */
function describeFace(face, errors, patterns) {
  const listFacts = (word, map) => [...map].map(([place, { text }]) => `${word} ${place} ${text}`);
  const { title, test: pin } = face;
  return [
    ...(title ? [`title ${title}`] : []), ...listFacts("key", face.keys).filter((line) => !line.endsWith(" ")),
    ...listFacts("lamp", face.lamps),
    ...listFacts("colour", face.colours), ...face.grid.map(({ row, column, lamp }) => `grid ${row} ${column} ${lamp}`),
    ...face.groups.map(({ kind, first, rows, columns, firstRowLamp }) => (
      `${kind} ${first} ${rows} ${columns}${firstRowLamp < 0 ? "" : ` by ${firstRowLamp}`}`)),
    ...(face.buzzer ? [`buzzer ${face.buzzer.place} ${face.buzzer.name}`] : []),
    ...(face.printer ? [`printer ${face.printer.strobe} ${face.printer.port} ${face.printer.words.join(" ")}`] : []),
    ...(pin ? [`test ${pin.kind} ${pin.name} ${pin.level}`] : []), ...listFacts("port", face.ports),
    ...errors.map(({ line, message }) => `fault line ${line}: ${message}`),
    ...patterns.map((pattern) => {
      const { number, names } = displayTextOf(face).read(pattern);
      return `shows ${pattern} ${number}${names && ` ${names}`}`;
    }),
  ].sort();
}

for (const name of ["all", "faults", "many", "none", "printer", "scanned", "shows"]) {
  test(`the front panel of a sample: ${name}`, () => {
    const text = readSample(`${name}.face`);
    const expected = readSample(`${name}.expected`).split("\n").filter(Boolean);
    const patterns = expected.filter((line) => line.startsWith("shows ")).map((line) => line.split(" ")[1]);
    const face = new Face(text);
    assert.deepEqual(describeFace(face, [...findFaceErrors(text), ...missingPartErrors(face, board)], patterns), expected);
  });
}

test("parsing a front panel takes time proportional to the length of its text", () => {
  const numberedWords = (count, prefix) => Array.from({ length: count }, (_, index) => `${prefix}${index}`).join(" ");
  for (const [text, errorCount] of [
    [`# lamp 0: ${numberedWords(100000, "n")}\n# grid 0: ${numberedWords(100000, "-")}\n`, 1],
    [`# lamp 0: ${numberedWords(500, "n")}\n# grid 0: ${numberedWords(500, "-")}\n${"# grid 1: n0\n".repeat(100000)}`, 501],
    ["# title: x\n# colour 0 to 9999: red\n".repeat(50000), 1001],
  ]) {
    // Measure processor time, so that other work on the machine does not count.
    const startUsage = process.cpuUsage();
    assert.ok(new Face(text).errors.length >= errorCount);
    assert.ok(process.cpuUsage(startUsage).user < 1000000);
  }
});

test("only the first of many errors are reported", () => {
  const messages = [moreErrorsMessage([1, 2], 2), moreErrorsMessage([1, 2], 1), moreErrorsMessage(new Array(1020), 20)];
  assert.deepEqual(messages, ["", "And 1 more.", "And 1,000 more."]);
});

/**
 * Returns the lamp marks for a row of digits. Each digit has four lamps, the highest bit first. With `width` 5, a fifth lamp is the decimal
 * point, which is on only in the digit with the index `point`.
 */
const lampsOf = (digits, width, point = -1) => digits.map((digit, index) => (
  digit.toString(2).padStart(4, "0").replace(/0/g, ".").replace(/1/g, "*") + (width === 5 ? (index === point ? "*" : ".") : ""))).join("");

test("displays with points: leading zeros are not shown", () => {
  const readDisplay = (lamps, digits) => {
    const face = new Face(`# lamp 0: minus overflow division_by_zero\n# display 3: ${digits} digits with points`);
    const { number, names } = displayTextOf(face).read(lamps);
    return [number, names];
  };
  assert.deepEqual(readDisplay(`...${lampsOf([0, 0, 0, 0, 0, 0, 4, 2], 5)}`, 8), ["42", ""]);
  assert.deepEqual(readDisplay(`*..${lampsOf([0, 0, 0, 3, 1, 4], 5, 3)}`, 6), ["-3.14", ""]);
  assert.deepEqual(readDisplay(`.**${lampsOf([0, 0, 0, 0], 5)}`, 4), ["0", "overflow division by zero"]);
  assert.deepEqual(readDisplay(`...${lampsOf([0, 0, 12, 4], 5)}`, 4), ["?4", ""]);
});

test("displays of digits with or without a sign; the number of lamps alone does not make a display", () => {
  assert.equal(displayTextOf(new Face("# display 0: 3 digits")).read(lampsOf([1, 2, 3], 4)).number, "123");
  assert.equal(displayTextOf(new Face("# lamp 0: minus\n# display 2: 3 digits")).read(`*.${lampsOf([0, 2, 3], 4)}`).number, "-23");
  assert.deepEqual(new Face('# Sixteen running lights.\n[[lamp]]\nline = "chain0.0"\n').groups, []);
});

test("names of JavaScript object members are not part of a front panel", () => {
  assert.deepEqual(findFaceErrors("# constructor 0: a\n# toString: b\n# __proto__: c\n"), []);
});
