// Tests the selection, the wire in progress and the resulting text of a drawn board, with the bench's module and a text whose changes can
// be undone.
import assert from "node:assert/strict";
import { test } from "node:test";
import { readBoard } from "../core/bench/answers.js";
import { Face } from "../core/board/face.js";
import { applyAction } from "../core/drawing/drawing_actions.js";
import { listPossibleSources } from "../core/drawing/board_lines.js";
import { BoardDrawing } from "../core/drawing/board_drawing.js";
import { sessionTitle } from "../core/session/session_summary.js";
import { selectionForm } from "../core/drawing/selection_form.js";
import { createLampLabels } from "../core/drawing/lamp_labels.js";
import { MovedParts } from "../core/drawing/moved_parts.js";
import { applyEdits, invertEdits } from "../core/drawing/text_edits.js";
import { Engine } from "../core/engine/engine.js";
import { examplesOfPage, pageModule } from "./page_session.js";

const enginePromise = Engine.load(pageModule);
const examples = examplesOfPage;
const boardOf = (exampleName) => examples.find(({ name }) => name === exampleName).board;

/** Resolves to a drawn board for a text, as the page creates it. */
async function createDrawnBoard(text = "") {
  const engine = await enginePromise;
  const file = engine.begin();
  const fixture = { text, undoSteps: [], view: null, queryCount: 0, onQuery: () => {} };
  fixture.drawing = new BoardDrawing({
    text: () => fixture.text,
    ask: async (lines) => {
      fixture.queryCount += 1;
      fixture.onQuery();
      return engine.ask(file, lines).answers;
    },
    edit: (edits) => {
      fixture.undoSteps.push(invertEdits(fixture.text, edits));
      fixture.text = applyEdits(fixture.text, edits);
    },
    undo: () => {
      const lastStep = fixture.undoSteps.pop();
      if (lastStep) fixture.text = applyEdits(fixture.text, lastStep);
      return lastStep !== undefined;
    },
    redo: () => false,
    describeRefusal: (number) => `refusal ${number}`,
  }, (view) => {
    fixture.view = view;
  });
  await fixture.drawing.refresh();
  return fixture;
}

test("on an empty bench, parts are added with the parts that they need, and a wire goes from pin to pin", async () => {
  const fixture = await createDrawnBoard();
  const { drawing } = fixture;
  assert.deepEqual([fixture.view.error, [...fixture.view.shelf.values()].every((reason) => reason === "")], ["", true]);
  await drawing.performInOrder({ kind: "add", part: "keys" });
  assert.equal(fixture.view.lastMessage, "The keys were added, with ROM 0, chain 0 and ROM 1.");
  assert.deepEqual([fixture.view.selected, fixture.view.shelf.get("keys")],
    ["keys", "A board has one key matrix: give it more rows and columns."]);
  await drawing.performInOrder({ kind: "add", part: "lamp" });
  await drawing.handleClick("rom0.2");
  assert.equal(fixture.view.lastMessage, "Wire from line rom0.2: it can end at 3 pins.");
  assert.deepEqual([...fixture.view.ends], ["clock 0", "data 0", "lamp 0"]);
  await drawing.handleClick("lamp 0");
  assert.equal(fixture.view.lastMessage, "Line rom0.2 is wired to lamp 0.");
  assert.deepEqual([fixture.view.board.lamps, fixture.view.selected, fixture.view.wireStart], [["rom0.2"], "lamp 0", ""]);
  for (const expected of ["Undone.", "Undone.", "Undone.", "There is nothing to undo."]) {
    await drawing.undoOrRedo("undo");
    assert.equal(fixture.view.lastMessage, expected);
  }
  assert.deepEqual([fixture.text, fixture.view.selected], ["", ""]);
});

test("a wire can begin at either end; an impossible wire is not drawn, and Escape cancels the wire", async () => {
  const fixture = await createDrawnBoard(boardOf("lock"));
  const { drawing } = fixture;
  await drawing.handleClick("column 1");
  assert.deepEqual([...fixture.view.ends], listPossibleSources(fixture.view.board, "column 1").filter((line) => line !== "rom1.1"));
  await drawing.handleClick("rom0.3");
  assert.deepEqual([fixture.view.wireStart, fixture.view.selected, fixture.text], ["rom0.3", "rom0.3", boardOf("lock")]);
  drawing.cancelWire();
  assert.deepEqual([fixture.view.wireStart, fixture.view.selected, fixture.view.lastMessage], ["", "rom0.3", "No wire was drawn."]);
  drawing.cancelWire();
  assert.equal(fixture.view.selected, "");
  await drawing.handleClick("rom0.3");
  await drawing.handleClick("rom0.3");
  assert.equal(fixture.view.wireStart, "");
  await drawing.handleClick("keys");
  assert.deepEqual([fixture.view.wireStart, fixture.view.selected], ["", "keys"]);
});

test("impossible actions are rejected with a reason, and the text stays", async () => {
  const fixture = await createDrawnBoard(boardOf("lock"));
  for (const [action, message] of [
    [{ kind: "delete", part: "clock 0" }, /wire it to another line, or delete the chain/],
    [{ kind: "delete", part: "rom0.1" }, /only with its chip/],
    [{ kind: "delete", part: "processor" }, /Every board has a processor/],
    [{ kind: "delete", part: "row 1" }, /delete the last one first/],
    [{ kind: "wire", line: "rom1.0", target: "clock 0" }, /is an input line/],
    [{ kind: "colour", lamp: 0, colour: "amber" }, /^No change\.$/],
  ]) {
    await fixture.drawing.performInOrder(action);
    assert.match(fixture.view.lastMessage, message);
  }
  assert.equal(fixture.text, boardOf("lock"));
});

test("a text with errors cannot be edited, and the last valid drawing stays", async () => {
  const fixture = await createDrawnBoard(boardOf("lock"));
  fixture.text = `${fixture.text}\n[[lamp]]\n`;
  await fixture.drawing.refresh();
  assert.match(fixture.view.error, /^The bench rejects the board's text: refusal 2[02]\. The Board tab shows where\.$/);
  assert.equal(fixture.view.board.lamps.length, 3);
  const text = fixture.text.replace("\n[[lamp]]\n", "");
  fixture.text = text.replace('"rom1.0"', '"rom1\\u002e0"');
  await fixture.drawing.refresh();
  assert.match(fixture.view.error, /^The drawing cannot change/);
  await fixture.drawing.performInOrder({ kind: "add", part: "rom" });
  assert.match(fixture.view.lastMessage, /^It was not done\. The drawing cannot change/);
  fixture.text = text;
  await fixture.drawing.refresh();
  assert.equal(fixture.view.error, "");
});

test("an action is rejected if the text would be too long for the bench", async () => {
  const longText = `lamp = [] # x\n${" \n".repeat(16370)}`;
  const fixture = await createDrawnBoard(longText);
  assert.equal(fixture.view.error, "");
  await fixture.drawing.performInOrder({ kind: "add", part: "rom" });
  assert.match(fixture.view.lastMessage, /^It was not done\. The bench rejects the board's text: refusal 13\./);
  assert.equal(fixture.text, longText);
});

test("an edit of the text during a query to the bench is kept", async () => {
  const fixture = await createDrawnBoard(boardOf("lock"));
  fixture.onQuery = () => {
    fixture.onQuery = () => {};
    fixture.text = `# typed meanwhile\n${fixture.text}`;
  };
  await fixture.drawing.performInOrder({ kind: "add", part: "ram" });
  assert.match(fixture.text, /^# typed meanwhile\n[^]*chips = 2\n/);
  assert.deepEqual(fixture.view.board.banks.map(({ chips }) => chips), [2]);
});

test("simultaneous actions are performed one after the other", async () => {
  const fixture = await createDrawnBoard();
  await Promise.all([1, 2, 3, 4].map(() => fixture.drawing.performInOrder({ kind: "add", part: "lamp" })));
  assert.deepEqual(fixture.view.board.lamps, ["ram0.0.0", "ram0.0.1", "ram0.0.2", "ram0.0.3"]);
});

test("lamps of a display are labelled by their digit and bit or segment", () => {
  const labelsOf = (text, count) => createLampLabels(new Face(text), count);
  assert.deepEqual(labelsOf("# lamp 0: minus\n# display 1: 2 digits with points\n", 9), ["minus", "digit 0: 8", "digit 0: 4", "digit 0: 2",
    "digit 0: 1", "digit 0: point", "digit 1: 8", "digit 1: 4", "digit 1: 2"]);
  assert.deepEqual(labelsOf("# display 0: 2 digits scanned by 4\n", 6), [..."8421"].map((lamp) => `all digits: ${lamp}`)
    .concat("digit 0", "digit 1"));
  assert.deepEqual(labelsOf("# display 0: 1 digit of 7 segments\n# bar 7: 2 lamps\n", 9),
    [..."abcdefg"].map((name) => `digit 0: ${name}`).concat("", ""));
});

test("a comment line about the front panel is not a title", () => {
  assert.deepEqual([sessionTitle("# lamp 0: a\n[[rom]]\n", "; a program. x\n"), sessionTitle("# My board\n# lamp 0: a\n", "")],
    ["A program.", "My board."]);
});

test("the drawing reports whether the bench has the same board", async () => {
  const fixture = await createDrawnBoard(boardOf("lock"));
  assert.equal(fixture.view.isWired, false);
  fixture.drawing.setSessionBoard(fixture.drawing.answers);
  await fixture.drawing.refresh();
  assert.equal(fixture.view.isWired, true);
  await fixture.drawing.performInOrder({ kind: "colour", lamp: 0, colour: "blue" });
  assert.equal(fixture.view.isWired, true);
  await fixture.drawing.performInOrder({ kind: "add", part: "lamp" });
  assert.equal(fixture.view.isWired, false);
});

test("each value that a field offers can be set, or is rejected with a reason; each button has an effect", async () => {
  const engine = await enginePromise;
  const file = engine.begin();
  for (const name of ["lock", "traffic light", "stopwatch"]) {
    const text = boardOf(name);
    const board = readBoard(engine.ask(file, `wire\n${text.replace(/^#.*$/gm, "")}.\nboard\n`).answers.slice(1));
    const face = new Face(text);
    const selections = ["", "rom 0", "ram 0.0", "chain 0", "keys", "lamp 0", "lamps", "test", "rom0.2", "clock 0", "column 0", "row 0"];
    for (const selection of selections) {
      const hasPart = board.chains.length > 0 || !/chain|keys|clock|column|row/.test(selection);
      const { title, fields, buttons } = selectionForm(board, face, hasPart ? selection : "");
      assert.ok(title.length > 3);
      for (const { label, value, options, createAction } of fields) {
        if (options) assert.ok(options.some((option) => option.value === value), `${name}: ${selection}: ${label} is ${value}`);
        for (const choice of options ? options.map((option) => option.value) : ["Other"]) {
          const { refusal, message } = applyAction(text, createAction(choice));
          assert.ok(refusal !== "" || message !== "", `${name}: ${label} ${choice}`);
        }
      }
      for (const { action } of buttons) assert.ok(applyAction(text, action).refusal !== "" || applyAction(text, action).edits.length > 0);
    }
  }
});

test("the positions of dragged chains follow their numbers, and are restored with the text", async () => {
  const fixture = await createDrawnBoard(boardOf("calculator"));
  const { drawing } = fixture;
  const { movedParts } = drawing;
  const initialPositions = [["chain 0", { x: 1, y: 2 }], ["chain 1", { x: 3, y: 4 }], ["rom 0", { x: 5, y: 6 }]];
  movedParts.load(initialPositions);
  await drawing.performInOrder({ kind: "add", part: "lamp" });
  assert.equal(movedParts.hasNewChanges(), false);
  await drawing.performInOrder({ kind: "delete", part: "chain 0" });
  const expectedPositions = { "chain 0": { x: 3, y: 4 }, "rom 0": { x: 5, y: 6 } };
  assert.deepEqual([Object.fromEntries(movedParts.positions), movedParts.hasNewChanges()], [expectedPositions, true]);
  await drawing.undoOrRedo("undo");
  const takeChangesTwice = () => [movedParts.hasNewChanges(), movedParts.hasNewChanges()];
  assert.deepEqual([Object.fromEntries(movedParts.positions), ...takeChangesTwice()], [Object.fromEntries(initialPositions), true, false]);
  await drawing.undoOrRedo("undo");
  assert.deepEqual([Object.fromEntries(movedParts.positions), movedParts.hasNewChanges()], [Object.fromEntries(initialPositions), false]);
});

test("if several chains are deleted, the others keep their positions", () => {
  const movedParts = new MovedParts();
  movedParts.load([0, 1, 2, 3].map((number) => [`chain ${number}`, { x: number, y: 0 }]));
  movedParts.recordDeletion("before", "after", [2, 0]);
  const chainPositions = () => [...movedParts.positions].sort().map(([part, { x }]) => `${part} ${x}`);
  for (let round = 0; round < 2; round++) {
    movedParts.updateForTextChange("before", "after");
    assert.deepEqual(chainPositions(), ["chain 0 1", "chain 1 3"]);
    movedParts.updateForTextChange("after", "before");
    assert.deepEqual(chainPositions(), ["chain 0 0", "chain 1 1", "chain 2 2", "chain 3 3"]);
  }
  movedParts.updateForTextChange("before", "another");
  assert.equal(chainPositions().length, 4);
});
