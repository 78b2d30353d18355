// Tests that the front panel comes from the text of the board in use.
import assert from "node:assert/strict";
import { test } from "node:test";
import { currentWiredText, describesSameBoard, textsToStore } from "../core/board/wired_board_text.js";

const ROM = "[[rom]]\nchip = 0\nport = \"0000\"\n";
const TEXT_WITH_TITLE = `# title: Mine\n${ROM}`;
const BOARD_LINES = ["board", "[[rom]]", "chip = 0", "port = \"0000\""];
const OTHER_BOARD_LINES = ["board", "[[rom]]", "chip = 1", "port = \"0000\""];
const WIRED = { text: TEXT_WITH_TITLE, board: BOARD_LINES.join("\n") };

test("a text that was changed since does not describe the wired board", () => {
  for (const editedText of [ROM.replace("chip = 0", "chip = 2"), `${ROM}[[lamp\n`, ""]) {
    assert.deepEqual(currentWiredText(BOARD_LINES, editedText, [WIRED]), WIRED);
    assert.equal(describesSameBoard(editedText, WIRED), false);
  }
});

test("a text with other comments still describes the wired board", () => {
  const renamedText = TEXT_WITH_TITLE.replace("Mine", "Other");
  assert.equal(describesSameBoard(renamedText, WIRED), true);
  assert.deepEqual(currentWiredText(BOARD_LINES, renamedText, [WIRED]), { ...WIRED, text: renamedText });
});

test("a text that the page reads differently is recognised as the wired text", () => {
  const dottedWiredText = { text: "# title: Dotted\nx.y = 1\n", board: BOARD_LINES.join("\n") };
  assert.deepEqual(currentWiredText(BOARD_LINES, "", [dottedWiredText]), dottedWiredText);
  assert.equal(describesSameBoard("# title: Again\nx.y = 1\n", dottedWiredText), true);
  assert.equal(describesSameBoard("x.y = 2\n", dottedWiredText), false);
});

test("the text of a board that was wired before is found again, and an unknown board has no text", () => {
  const otherWiredText = { text: "# title: Other\n", board: OTHER_BOARD_LINES.join("\n") };
  const storedTexts = textsToStore(otherWiredText, textsToStore(WIRED));
  assert.deepEqual(storedTexts, [otherWiredText, WIRED]);
  assert.deepEqual(currentWiredText(BOARD_LINES, "", storedTexts), WIRED);
  assert.deepEqual(currentWiredText(["board"], ROM, storedTexts), { text: "", board: "board" });
  assert.deepEqual(textsToStore({ ...WIRED, text: ROM }, storedTexts).map(({ text }) => text), [ROM, "# title: Other\n"]);
});

test("a session without stored texts has the front panel of its current text", () => {
  assert.deepEqual(currentWiredText(BOARD_LINES, "# title: Old\n", undefined), { text: "# title: Old\n", board: BOARD_LINES.join("\n") });
});
