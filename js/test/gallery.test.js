import assert from "node:assert/strict";
import { readFileSync } from "node:fs";
import { test } from "node:test";
import { drawGalleryPicture } from "../core/session/gallery_picture.js";

const BOARD = `# row 0: left right
# colour 0: red green
[[lamp]]
line = "ram0.0.0"

[[lamp]]
line = "ram0.0.1"
`;

const kindsOf = ({ shapes }) => shapes.map((shape) => shape.kind);

test("lamps have their colours and keys their legends; one lamp of each colour is on", () => {
  const picture = drawGalleryPicture(BOARD);
  assert.deepEqual(kindsOf(picture), ["lamp", "lamp", "key", "key"]);
  assert.deepEqual(picture.shapes.slice(0, 2).map(({ colour, isLit }) => [colour, isLit]), [["red", true], ["green", true]]);
  assert.deepEqual(picture.shapes.slice(2).map(({ legend }) => legend), ["left", "right"]);
});

test("the calculator has a display and twenty keys, all within the picture", () => {
  const text = readFileSync(new URL("../../examples/calculator/board.toml", import.meta.url), "utf8");
  const picture = drawGalleryPicture(text);
  assert.equal(kindsOf(picture).filter((kind) => kind === "display").length, 1);
  assert.equal(kindsOf(picture).filter((kind) => kind === "key").length, 20);
  assert.equal(picture.shapes.find(({ kind }) => kind === "display").digits.length, 8);
  for (const { x, y } of picture.shapes) assert.ok(x >= 0 && x <= picture.width && y >= 0 && y <= picture.height);
});

test("an empty board text, and a board without lamps and keys, have empty pictures", () => {
  assert.deepEqual(drawGalleryPicture("").shapes, []);
  assert.deepEqual(drawGalleryPicture('[[rom]]\nchip = 0\nport = "0000"\n').shapes, []);
});
