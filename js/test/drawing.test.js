// Tests the board drawing: applies each drawing action to the boards of the examples, and to boards in other TOML styles. The bench must
// accept each resulting text.
import assert from "node:assert/strict";
import { test } from "node:test";
import { readBoard } from "../core/bench/answers.js";
import { Face, findFaceErrors } from "../core/board/face.js";
import { printerLines, missingPartErrors } from "../core/board/face_board.js";
import { SHELF_PARTS, applyAction, matchesBench } from "../core/drawing/drawing_actions.js";
import { signalLines } from "../core/bench/board_form.js";
import { canConnect, listPossibleSources, listPossibleTargets, mapInputsToLines, boardWithBuzzer } from "../core/drawing/board_lines.js";
import { selectionForm } from "../core/drawing/selection_form.js";
import { applyEdits, invertEdits } from "../core/drawing/text_edits.js";
import { parseFaceLine } from "../core/board/face_words.js";
import { sentText } from "../core/text/sendable_text.js";
import { Engine } from "../core/engine/engine.js";
import { examplesOfPage, pageModule } from "./page_session.js";

const enginePromise = Engine.load(pageModule);
/** @type {Engine} */
let engine;
/** A session without a board. */
let emptySession;

/** Defines a test that runs after the bench has been loaded. */
const testOnBench = (name, run) => test(name, async () => {
  engine = await enginePromise;
  emptySession = emptySession || engine.begin();
  run();
});
const examples = examplesOfPage.map(({ name, board }) => ({ name, text: board })).filter(({ text }) => text);

/** Boards whose texts have other TOML styles than the examples. */
const OTHER_BOARDS = [
  { name: "nothing", text: "" },
  { name: "a comment alone", text: "# A board to come" },
  { name: "without a line feed at the end", text: '[[rom]]\nchip = 0x03 # the port\nport = "0i01"\n\n[[lamp]]\nline = "rom3.0"' },
  { name: "tables as values", text: 'rom = [{ chip = 0, port = "0000" },\n  # the second one\n  { chip = 1, port = "iiii" }, # reads\n]\n'
    + 'chain = [{ clock = "rom0.0", data = "rom0.1", chips = 2 }]\n'
    + 'keys = { chain = 0, first = 1, rows = 2, columns = ["rom1.0", \'rom1.1\'] }\n'
    + 'lamp = [\n    { line = "chain0.9" }, # the ninth\n    { line = "rom0.2" } # the last\n]\nram = []\n' },
  { name: "comments everywhere", text: '# Title\n# lamp 0: a b\n\n\n[[lamp]] # one\nline = "ram2.0.0" # here\n# between\n[[lamp]]\n'
    + 'line = "ram2.0.1"\n# after\n\n[[ram]]\n# inside\nbank = 2\nchips = 1\n# end\n' },
];
const BOARDS = [...examples, ...OTHER_BOARDS];

/** Returns, for each text, the bench's first answer (`first`) and the lines of the board after it (`board`). */
function boardAnswers(texts) {
  const { answers } = engine.ask(emptySession, texts.map((text) => `wire\n${sentText(text, "#")}.\nboard\n`).join(""));
  const replies = [];
  for (const answer of answers) {
    if (/^(ok|no) /.test(answer)) replies.push({ first: answer, board: [] });
    else replies[replies.length - 1].board.push(answer);
  }
  return replies;
}

const boardTextOf = (board) => [
  ...board.roms.map(({ chip, port }) => `[[rom]]\nchip = ${chip}\nport = "${port}"\n`),
  ...board.banks.map(({ bank, chips }) => `[[ram]]\nbank = ${bank}\nchips = ${chips}\n`),
  ...board.chains.map(({ clock, data, chips }) => `[[chain]]\nclock = "${clock}"\ndata = "${data}"\nchips = ${chips}\n`),
  ...(board.matrix ? [`[keys]\nchain = ${board.matrix.chain}\nfirst = ${board.matrix.first}\nrows = ${board.matrix.rows}\n`
    + `columns = ${JSON.stringify(board.matrix.columns)}\n`] : []),
  ...board.lamps.map((line) => `[[lamp]]\nline = "${line}"\n`),
].join("");

/** Returns a board with a new wire from a line to a target, as the manual describes it. Uses no code of the page. */
function addWire(board, line, target) {
  const newBoard = structuredClone(board);
  const [kind, partNumber] = [target.split(" ")[0], Number(target.split(" ")[1])];
  if (kind === "clock" || kind === "data") newBoard.chains[partNumber][kind] = line;
  if (kind === "lamp") newBoard.lamps[partNumber] = line;
  if (kind === "column") newBoard.matrix.columns[partNumber] = line;
  if (kind === "row") {
    const match = /^chain(\d+)\.(\d+)$/.exec(line);
    newBoard.matrix.chain = match ? Number(match[1]) : line;
    newBoard.matrix.first = match ? Number(match[2]) - partNumber : line;
  }
  return newBoard;
}

const commentsOf = (text) => text.split("\n").flatMap((line) => {
  const match = /#.*$/.exec(line.replace(/"[^"]*"/g, ""));
  return match && !parseFaceLine(line) ? [match[0]] : [];
});

/** Checks an action: the bench accepts the new text and reports `expectedBoard`, and the edits can be undone. */
function checkAction(name, text, action, expectedBoard) {
  const result = applyAction(text, action);
  const label = `${name}: ${JSON.stringify(action)}`;
  assert.equal(result.refusal, "", label);
  const [replyBefore, replyAfter] = boardAnswers([text, result.text]);
  assert.match(replyAfter.first, /^ok/, `${label}\n${result.text}`);
  assert.ok(matchesBench(result.text, replyAfter.board), label);
  if (expectedBoard) assert.deepEqual(readBoard(replyAfter.board), expectedBoard, label);
  assert.equal(applyEdits(text, result.edits), result.text);
  assert.equal(applyEdits(result.text, invertEdits(text, result.edits)), text);
  assert.ok(findFaceErrors(result.text).length <= findFaceErrors(text).length, label);
  const countMissingParts = (boardText, board) => missingPartErrors(new Face(boardText), board).length;
  assert.ok(countMissingParts(result.text, readBoard(replyAfter.board)) <= countMissingParts(text, readBoard(replyBefore.board)),
    `${label}\n${result.text}`);
  assert.match(result.message, /^[A-Z].*\.$/);
  return { ...result, board: readBoard(replyAfter.board) };
}

testOnBench("the page and the bench read the same board from each text", () => {
  boardAnswers(BOARDS.map(({ text }) => text)).forEach(({ first, board }, index) => {
    assert.match(first, /^ok/, BOARDS[index].name);
    assert.ok(matchesBench(BOARDS[index].text, board), BOARDS[index].name);
  });
});

testOnBench("a text that the page reads differently is not edited", () => {
  for (const text of ['[[rom]]\n"chip" = 0\nport = "00\\u00300"\n', 'rom = [{ chip = 0, port = """0000""" }]\n']) {
    const [{ first, board }] = boardAnswers([text]);
    assert.deepEqual([first, matchesBench(text, board)], ["ok 1", false]);
  }
  assert.match(applyAction("[[rom\n", { kind: "add", part: "ram" }).refusal, /has errors/);
});

testOnBench("a buzzer keeps its line, is deleted with it, and follows renumbered chains", () => {
  const chain = '[[chain]]\nclock = "rom0.0"\ndata = "rom0.1"\nchips = 1\n';
  const text = `# buzzer chain1.12: horn\n[[rom]]\nchip = 0\nport = "0000"\n${chain}${chain.replace("chips = 1", "chips = 2")}`;
  const firstLineOf = (result) => result.text.split("\n")[0];
  assert.equal(firstLineOf(checkAction("horn", text, { kind: "delete", part: "chain 0" })), "# buzzer chain0.12: horn");
  assert.equal(firstLineOf(checkAction("horn", text, { kind: "delete", part: "chain 1" })), "[[rom]]");
  assert.match(applyAction(text, { kind: "chips", chain: 1, chips: 1 }).refusal,
    /The buzzer is at chain1.12: give it another line first/);
  const portBuzzerText = text.replace("chain1.12", "rom0.3");
  assert.match(applyAction(portBuzzerText, { kind: "port", line: "rom0.3", mode: "i" }).refusal, /The buzzer is at rom0.3/);
  checkAction("horn", portBuzzerText, { kind: "port", line: "rom0.2", mode: "i" });
  const ramBuzzerText = "# buzzer ram0.1.3: horn\n[[ram]]\nbank = 0\nchips = 2\n";
  assert.equal(firstLineOf(checkAction("horn", ramBuzzerText, { kind: "delete", part: "ram 0.1" })), "[[ram]]");
});

testOnBench("a buzzer is added, wired, named and deleted, and is deleted with its chip", () => {
  const firstLineOf = ({ text }) => text.split("\n", 1)[0];
  const addResult = checkAction("nothing", "", { kind: "add", part: "buzzer" });
  assert.equal(addResult.text, '# buzzer rom0.0: buzzer\n\n[[rom]]\nchip = 0\nport = "0000"\n');
  assert.equal(addResult.message, "The buzzer was added, with ROM 0.");
  assert.match(applyAction(addResult.text, { kind: "add", part: "buzzer" }).refusal, /^A board can have only one buzzer/);
  // The default clock line of a chain, rom0.0, is already in use by the buzzer.
  assert.match(checkAction("buzzer", addResult.text, { kind: "add", part: "chain" }).text, /clock = "rom0.1"/);
  const wireResult = checkAction("buzzer", addResult.text, { kind: "wire", line: "rom0.2", target: "buzzer 0" });
  assert.deepEqual([firstLineOf(wireResult), wireResult.message], ["# buzzer rom0.2: buzzer", "Line rom0.2 is wired to the buzzer."]);
  const nameResult = checkAction("buzzer", wireResult.text, { kind: "name", part: "buzzer", name: "the horn" });
  assert.deepEqual([firstLineOf(nameResult), nameResult.message], ["# buzzer rom0.2: the horn", "The buzzer is called the horn."]);
  assert.equal(applyAction(nameResult.text, { kind: "name", part: "buzzer", name: " " }).refusal, "A buzzer needs a name.");
  const textWithInputs = applyAction(nameResult.text, { kind: "add", part: "inputs" }).text;
  const { refusal } = applyAction(textWithInputs, { kind: "wire", line: "rom1.0", target: "buzzer 0" });
  assert.match(refusal, /rom1.0 is an input line: the buzzer needs/);
  assert.equal(checkAction("buzzer", nameResult.text, { kind: "delete", part: "buzzer" }).text, '[[rom]]\nchip = 0\nport = "0000"\n');
  assert.equal(checkAction("buzzer", nameResult.text, { kind: "delete", part: "rom 0" }).message,
    "ROM 0 was deleted, and with it the buzzer.");
  const board = { ...nameResult.board, buzzer: "rom0.2" };
  assert.deepEqual(listPossibleTargets(board, "rom0.3"), ["buzzer 0"]);
  const { title, fields, buttons } = selectionForm(board, new Face(nameResult.text), "buzzer 0");
  assert.deepEqual([title, ...fields.map(({ value }) => value), ...buttons.map(({ label }) => label)],
    ["The buzzer", "the horn", "rom0.2", "Delete"]);
});

testOnBench("a printer is deleted with the chip of its strobe or of its port", () => {
  const firstLineOf = ({ text }) => text.split("\n", 1)[0];
  const chain = '[[chain]]\nclock = "rom0.0"\ndata = "rom0.1"\nchips = 1\n';
  const ram = "[[ram]]\nbank = 0\nchips = 2\n";
  const text = `# printer chain1.9: ram0.1 0 feed\n[[rom]]\nchip = 0\nport = "0000"\n${ram}${chain}${chain}`;
  assert.equal(firstLineOf(checkAction("strobe", text, { kind: "delete", part: "chain 0" })), "# printer chain0.9: ram0.1 0 feed");
  for (const part of ["chain 1", "ram 0.1"]) assert.equal(firstLineOf(checkAction("gone", text, { kind: "delete", part })), "[[rom]]");
});

for (const { name, text } of BOARDS) {
  const readCurrentBoard = () => readBoard(boardAnswers([text])[0].board);

  testOnBench(`${name}: each part of the shelf can be added, and deleted again completely`, () => {
    const board = readCurrentBoard();
    for (const part of SHELF_PARTS) {
      if (applyAction(text, { kind: "add", part }).refusal) continue;
      const result = checkAction(name, text, { kind: "add", part });
      assert.deepEqual(commentsOf(result.text), commentsOf(text), `${name}: ${part}`);
      const hasGrown = boardTextOf(board).length < boardTextOf(result.board).length || ["button", "switch", "buzzer", "ram"].includes(part);
      assert.ok(hasGrown, part);
      const deletion = checkAction(name, result.text, { kind: "delete", part: result.part });
      if (!result.message.includes(", with ")) {
        assert.deepEqual(deletion.board, board, `${name}: ${part} and back`);
        if (!OTHER_BOARDS.some((otherBoard) => otherBoard.text === text)) assert.equal(deletion.text, text, `${name}: ${part} and back`);
      }
    }
  });

  testOnBench(`${name}: each offered wire can be drawn, and undone`, () => {
    const board = readCurrentBoard();
    const lines = signalLines(board).map((line) => line.name);
    const someLines = lines.filter((_, index) => lines.length < 30 || index % 13 === 0);
    for (const line of someLines) {
      for (const target of listPossibleTargets(board, line).filter((_, index) => index % 5 === 0 || board.lamps.length < 8)) {
        const result = checkAction(name, text, { kind: "wire", line, target }, addWire(board, line, target));
        assert.deepEqual(commentsOf(result.text), commentsOf(text));
        const oldLine = mapInputsToLines(board).get(target);
        assert.ok(listPossibleSources(result.board, target).includes(oldLine));
        assert.deepEqual(checkAction(name, result.text, { kind: "wire", line: oldLine, target }, board).board, board);
      }
    }
  });

  testOnBench(`${name}: each part can be deleted, and other parts keep their wires`, () => {
    const board = readCurrentBoard();
    const parts = [...board.roms.map(({ chip }) => `rom ${chip}`), ...board.banks.map(({ bank, chips }) => `ram ${bank}.${chips - 1}`),
      ...board.chains.map((_, index) => `chain ${index}`),
      ...board.lamps.map((_, index) => `lamp ${index}`).filter((_, index) => index % 5 === 0),
      ...(board.matrix ? ["keys", `row ${board.matrix.rows - 1}`, ...board.matrix.columns.map((_, index) => `column ${index}`)] : [])];
    for (const part of parts) {
      if (part === "row 0") continue;
      const result = checkAction(name, text, { kind: "delete", part });
      const remainingComments = commentsOf(result.text);
      const lostComments = commentsOf(text).filter((comment) => !remainingComments.includes(comment));
      // A comment in one of the part's lines would be deleted with the part, but the examples have no such comments.
      if (examples.some((example) => example.name === name)) assert.deepEqual(lostComments, [], `${name}: ${part}`);
      checkOtherParts(board, new Face(text), result, part);
    }
  });

  testOnBench(`${name}: other sizes, directions and copies`, () => {
    const board = readCurrentBoard();
    for (const [chain, { chips }] of board.chains.entries()) {
      const expected = structuredClone(board);
      expected.chains[chain].chips += 1;
      const result = checkAction(name, text, { kind: "chips", chain: chain, chips: chips + 1 }, expected);
      assert.equal(checkAction(name, result.text, { kind: "chips", chain: chain, chips }, board).text.length > 0, true);
    }
    for (const { chip, port } of board.roms) {
      for (const line of [0, 1, 2, 3]) {
        const isUsed = [...mapInputsToLines(board).values()].includes(`rom${chip}.${line}`);
        const action = { kind: "port", line: `rom${chip}.${line}`, mode: port[3 - line] === "i" ? "1" : "i" };
        const { printer } = new Face(text);
        if (isUsed) {
          assert.match(applyAction(text, action).refusal, /is wired to/);
        } else if (printer && printerLines(printer).includes(action.line)) {
          assert.match(applyAction(text, action).refusal, /The printer is at/);
        } else assert.equal(checkAction(name, text, action).board.roms.find((rom) => rom.chip === chip).port[3 - line], action.mode);
      }
    }
    const parts = [...board.roms.map(({ chip }) => `rom ${chip}`), ...board.chains.map((_, index) => `chain ${index}`)];
    for (const part of [...parts, ...(board.lamps.length > 0 ? ["lamp 0"] : []), ...(board.banks.length > 0 ? ["ram 0.0"] : [])]) {
      if (!applyAction(text, { kind: "copy", part }).refusal) checkAction(name, text, { kind: "copy", part });
    }
    if (board.matrix && !applyAction(text, { kind: "column" }).refusal) {
      const { columns } = checkAction(name, text, { kind: "column" }).board.matrix;
      assert.deepEqual(columns.slice(0, -1), board.matrix.columns);
    }
  });

  testOnBench(`${name}: names and colours are read back unchanged`, () => {
    const board = readCurrentBoard();
    board.lamps.forEach((_, lamp) => {
      if (board.lamps.length > 16 && lamp % 9 > 0) return;
      const result = checkAction(name, text, { kind: "name", part: `lamp ${lamp}`, name: "an odd name" }, board);
      const face = new Face(result.text);
      assert.equal(face.lamps.get(lamp).text, "an_odd_name");
      const otherNames = [...new Face(text).lamps].filter(([index]) => index !== lamp).map(([index, faceText]) => [index, faceText.text]);
      assert.deepEqual([...face.lamps].filter(([index]) => index !== lamp).map(([index, faceText]) => [index, faceText.text]), otherNames);
      const colouredFace = new Face(checkAction(name, text, { kind: "colour", lamp, colour: "blue" }, board).text);
      assert.equal(colouredFace.colours.get(lamp).text, "blue");
      const otherColours = [...new Face(text).colours].filter(([index]) => index !== lamp)
        .map(([index, faceText]) => [index, faceText.text]).sort();
      assert.deepEqual([...colouredFace.colours].filter(([index]) => index !== lamp)
        .map(([index, faceText]) => [index, faceText.text]).sort(), otherColours);
      assert.equal(new Face(checkAction(name, text, { kind: "colour", lamp, colour: "" }, board).text).colours.has(lamp), false);
      const unnameAction = { kind: "name", part: `lamp ${lamp}`, name: "" };
      // The name of another lamp can be equal to the number of this lamp on the grid.
      const { grid, lamps } = new Face(text);
      const isTaken = grid.length > 0 && [...lamps].some(([index, faceText]) => index !== lamp && faceText.text === `${lamp}`);
      if (isTaken) assert.match(applyAction(text, unnameAction).refusal, /Another lamp would then be/);
      else assert.equal(new Face(checkAction(name, text, unnameAction, board).text).lamps.has(lamp), false);
    });
    for (let row = 0; row < board.rows; row++) {
      for (let column = 0; column < board.columns; column++) {
        const result = checkAction(name, text, { kind: "name", part: `key ${row} ${column}`, name: "any key" }, board);
        assert.equal(new Face(result.text).keys.get(`${row} ${column}`).text, "any_key");
      }
    }
    const titleResult = checkAction(name, text, { kind: "name", part: "title", name: " My  board " }, board);
    assert.equal(new Face(titleResult.text).title, "My board");
    assert.equal(new Face(checkAction(name, titleResult.text, { kind: "name", part: "title", name: "" }, board).text).title, "");
    for (const { chip } of board.roms) {
      const result = checkAction(name, text, { kind: "name", part: `rom ${chip}`, name: "of the program" }, board);
      assert.equal(new Face(result.text).ports.get(`rom${chip}`).text, "of the program");
    }
  });
}

/**
 * Checks that all other parts are unchanged after a part was deleted. Lamps and chains are renumbered, and each lamp still has its name and
 * its colour.
 */
function checkOtherParts(oldBoard, oldFace, { board, text }, part) {
  const face = new Face(text);
  const partNumber = Number(part.split(" ")[1]);
  const isDeletedLine = (line) => (part.startsWith("rom ") && line.startsWith(`rom${partNumber}.`)) || (part.startsWith("ram ")
    && line.startsWith(`${part.replace(" ", "")}.`)) || (part.startsWith("chain ") && line.startsWith(`chain${partNumber}.`));
  const isChainDeleted = oldBoard.chains
    .map(({ clock, data }, index) => isDeletedLine(clock) || isDeletedLine(data) || part === `chain ${index}`);
  const renumberLine = (line) =>
    line.replace(/^chain(\d+)/, (_, chain) => `chain${chain - isChainDeleted.slice(0, chain).filter(Boolean).length}`);
  const isLampLineDeleted = (line) => isDeletedLine(line) || (line.startsWith("chain") && isChainDeleted[Number(/\d+/.exec(line)[0])]);
  const isInGroup = ({ first, rows, columns, firstRowLamp }, lamp) => (firstRowLamp < 0 ? first <= lamp && lamp < first + rows * columns
    : (first <= lamp && lamp < first + columns) || (firstRowLamp <= lamp && lamp < firstRowLamp + rows));
  const groupOf = (lamp) => oldFace.groups.find((group) => isInGroup(group, lamp));
  const isLampToDelete = oldBoard.lamps.map((line, index) => isLampLineDeleted(line) || part === `lamp ${index}`);
  const sharesDeletedGroup = (index, otherIndex) => isLampToDelete[otherIndex] && groupOf(index) && groupOf(index) === groupOf(otherIndex);
  const isLampDeleted = oldBoard.lamps
    .map((_, index) => isLampToDelete[index] || oldBoard.lamps.some((__, otherIndex) => sharesDeletedGroup(index, otherIndex)));
  const keptLamps = [...isLampDeleted.keys()].filter((index) => !isLampDeleted[index]);
  assert.deepEqual(board.lamps, keptLamps.map((index) => renumberLine(oldBoard.lamps[index])), part);
  keptLamps.forEach((oldIndex, newIndex) => {
    assert.equal((face.lamps.get(newIndex) || {}).text, (oldFace.lamps.get(oldIndex) || {}).text, `${part}: name of ${oldIndex}\n${text}`);
    assert.equal((face.colours.get(newIndex) || {}).text, (oldFace.colours.get(oldIndex) || {}).text,
      `${part}: colour of ${oldIndex}\n${text}`);
  });
  assert.deepEqual(board.chains, oldBoard.chains.filter((_, index) => !isChainDeleted[index]), part);
  const groups = oldFace.groups.filter(({ first }) => !isLampDeleted[first]);
  assert.deepEqual(face.groups.map(({ kind, first, firstRowLamp }) => [kind, first, firstRowLamp]),
    groups.map(({ kind, first, firstRowLamp }) => (
      [kind, keptLamps.indexOf(first), firstRowLamp < 0 ? firstRowLamp : keptLamps.indexOf(firstRowLamp)])));
  assert.deepEqual(face.grid.map(({ row, column, lamp }) => [row, column, lamp]),
    oldFace.grid.filter(({ lamp }) => !isLampDeleted[lamp]).map(({ row, column, lamp }) => [row, column, keptLamps.indexOf(lamp)]));
}

testOnBench("the offered wires are exactly those that the bench accepts", () => {
  const someExamples = examples.filter((example) => ["lock", "counter", "first", "traffic light"].includes(example.name));
  for (const { name, text } of [...someExamples, OTHER_BOARDS[3]]) {
    const board = readBoard(boardAnswers([text])[0].board);
    const pairs = signalLines(board).flatMap((line) => [...mapInputsToLines(board).keys()].map((target) => ({ line, target })));
    const answers = boardAnswers(pairs.map(({ line, target }) => boardTextOf(addWire(board, line.name, target))));
    pairs.forEach(({ line, target }, index) => {
      assert.equal(canConnect(board, line, target), answers[index].first.startsWith("ok"),
        `${name}: ${line.name} to ${target}: ${answers[index].first}`);
    });
  }
});

/** Returns a function that picks an element of a list pseudo-randomly. The same seed gives the same picks. */
function createPicker(seed) {
  let state = seed;
  return (list) => {
    state = (Math.imul(state, 1103515245) + 12345) >>> 0;
    return list[(state >>> 8) % list.length];
  };
}

/** Returns a random action that a user can perform on a board with the shelf, a pin, a field or a button. */
function randomAction(pick, board, face) {
  const lines = signalLines(board).map((line) => line.name);
  const parts = ["", ...board.roms.map(({ chip }) => `rom ${chip}`), ...board.banks.map(({ bank }) => `ram ${bank}.0`),
    ...board.chains.map((_, index) => `chain ${index}`), ...(board.matrix ? ["keys"] : []), ...mapInputsToLines(board).keys(), ...lines];
  const { fields, buttons } = selectionForm(board, face, pick(parts));
  const line = pick([...lines, ""]);
  const field = pick([...fields, null]);
  const names = ["", "a", "b c", "0", "3", "x:y", "#", "_", "red", "**"];
  return pick([
    { kind: "add", part: pick(SHELF_PARTS), digits: pick([1, 2, 3]) },
    { kind: "wire", line, target: pick([...listPossibleTargets(board, line), "lamp 0"]) },
    ...(field ? [field.createAction(field.options ? pick(field.options).value : pick(names))] : []),
    ...buttons.map(({ action }) => action).slice(0, 1 + Number(pick([0, 0, 1]))),
  ]);
}

testOnBench("after random actions, the bench accepts the text, comments stay, and all actions can be undone", () => {
  let [doneCount, refusalCount] = [0, 0];
  for (let seed = 1; seed <= 30; seed++) {
    const pick = createPicker(seed);
    const initialText = pick(["", ...examples.map(({ text }) => text)]);
    let text = initialText;
    const undoEdits = [];
    for (let step = 0; step < 25; step++) {
      const face = new Face(text);
      const action = randomAction(pick, boardWithBuzzer(readBoard(boardAnswers([text])[0].board), face), face);
      if (applyAction(text, action).refusal) refusalCount += 1;
      else {
        const result = checkAction(`seed ${seed}`, text, action);
        assert.deepEqual(commentsOf(result.text), commentsOf(text), `seed ${seed}: ${JSON.stringify(action)}`);
        undoEdits.unshift(...invertEdits(text, result.edits));
        ({ text } = result);
        doneCount += 1;
      }
    }
    assert.equal(applyEdits(text, undoEdits), initialText);
  }
  assert.ok(doneCount > 400 && refusalCount > 20, `${doneCount} done, ${refusalCount} refused`);
});

testOnBench("an impossible wire is rejected with a reason", () => {
  const { text } = OTHER_BOARDS[3];
  const refusalOf = (line, target) => applyAction(text, { kind: "wire", line, target }).refusal;
  assert.equal(refusalOf("rom1.0", "clock 0"), "rom1.0 is an input line: the clock of chain 0 needs an output line.");
  assert.equal(refusalOf("chain0.3", "data 0"),
    "chain0.3 is a bit of a chain: the data of chain 0 needs an output line of a ROM or a RAM chip.");
  assert.match(refusalOf("rom0.1", "column 0"), /output line: column 0 of the keys/);
  assert.match(refusalOf("chain0.0", "row 1"), /^Consecutive bits of one chain/);
  assert.match(refusalOf("rom9.0", "lamp 0"), /no rom9.0/);
});

testOnBench("a part that does not fit on the board is rejected with a reason", () => {
  const addParts = (part, count) => Array.from({ length: count }).reduce((text) => applyAction(text, { kind: "add", part }).text, "");
  const refusalOf = (part, count) => applyAction(addParts(part, count), { kind: "add", part }).refusal;
  assert.deepEqual([refusalOf("rom", 15), refusalOf("rom", 16)], ["", "A board has at most 16 ROMs."]);
  assert.deepEqual([refusalOf("ram", 31), refusalOf("ram", 32)], ["", "A board has at most 8 banks of 4 RAM chips."]);
  assert.deepEqual([refusalOf("chain", 3), refusalOf("chain", 4)], ["", "A board has at most 4 chains."]);
  assert.deepEqual([refusalOf("keys", 0), refusalOf("keys", 1)], ["", "A board has one key matrix: give it more rows and columns."]);
  assert.deepEqual([refusalOf("lamp", 63), refusalOf("lamp", 64)], ["", "A board has at most 64 lamps; it has 64."]);
  assert.match(refusalOf("button", 1), /already has a button or a switch: delete it/);
  const boardText = addParts("chain", 1);
  assert.equal(applyAction(boardText, { kind: "chips", chain: 0, chips: 8 }).refusal, "");
  assert.equal(applyAction(boardText, { kind: "chips", chain: 0, chips: 9 }).refusal, "A chain has at most 8 chips.");
  assert.equal(applyAction(boardText, { kind: "chips", chain: 0, chips: 0 }).refusal,
    "A chain has at least one chip; to remove it, delete the chain.");
});

testOnBench("from nothing to four keys and four lamps", () => {
  let text = "";
  const perform = (action) => {
    const result = checkAction("nothing", text, action);
    ({ text } = result);
    return result;
  };
  assert.equal(perform({ kind: "add", part: "keys" }).message, "The keys were added, with ROM 0, chain 0 and ROM 1.");
  for (let lamp = 0; lamp < 4; lamp++) assert.equal(perform({ kind: "add", part: "lamp" }).part, `lamp ${lamp}`);
  const { board } = perform({ kind: "colour", lamp: 3, colour: "green" });
  assert.deepEqual(board.lamps, [0, 1, 2, 3].map((line) => `ram0.0.${line}`));
  assert.deepEqual([board.rows, board.columns], [1, 4]);
});

testOnBench("a display of digits, and of seven segments", () => {
  for (const [part, digits, first] of [["digit", 2, "ram0.0.3"], ["segments", 4, "chain0.0"]]) {
    const { text, board } = checkAction("nothing", "", { kind: "add", part, digits });
    const [{ kind, rows, columns }] = new Face(text).groups;
    assert.deepEqual([kind, rows, columns, board.lamps[0]], ["display", digits, part === "digit" ? 4 : 7, first]);
    assert.equal(board.lamps.length, rows * columns);
  }
  assert.match(applyAction("", { kind: "add", part: "segments", digits: 10 }).refusal, /at most 64/);
  assert.match(applyAction("", { kind: "add", part: "digit", digits: 0.5 }).refusal, /whole number/);
});

testOnBench("a multiplexed display is added, renumbered, and deleted as a whole", () => {
  const { text, board } = checkAction("nothing", "", { kind: "add", part: "scanned", digits: 2 });
  const [{ kind, rows, columns, firstRowLamp }] = new Face(text).groups;
  assert.deepEqual([kind, rows, columns, firstRowLamp, board.lamps.length], ["display", 2, 7, 7, 9]);
  const shiftedText = text.replace("# display 0: 2 digits of 7 segments scanned by 7\n",
    "# display 1: 2 digits of 7 segments scanned by 8\n")
    .replace("[[lamp]]\n", '[[lamp]]\nline = "rom0.3"\n\n[[lamp]]\n');
  const { text: textAfterDeletion } = checkAction("one lamp before it", shiftedText, { kind: "delete", part: "lamp 0" });
  assert.equal(textAfterDeletion, text);
  for (const lamp of [1, 5, 8, 9]) {
    const { board: remainingBoard, text: remainingText } = checkAction("its lamps", shiftedText, { kind: "delete", part: `lamp ${lamp}` });
    assert.deepEqual([remainingBoard.lamps, new Face(remainingText).groups], [["rom0.3"], []]);
  }
  assert.match(applyAction(text, { kind: "copy", part: "lamp 0" }).refusal, /belong together/);
  assert.match(applyAction("", { kind: "add", part: "scanned", digits: 17 }).refusal, /1 to 16/);
});

testOnBench("a name that the front panel cannot have is rejected with a reason", () => {
  const { text } = examples.find(({ name }) => name === "lock");
  const refusalOf = (part, name) => applyAction(text, { kind: "name", part, name }).refusal;
  assert.match(refusalOf("lamp 1", "alarm"), /^The lamp alarm is already named/);
  assert.match(refusalOf("lamp 1", "**"), /pattern/);
  assert.match(refusalOf("key 0 0", "9"), /^The key 9 is already named/);
  assert.match(refusalOf("test", ""), /needs a name/);
});
