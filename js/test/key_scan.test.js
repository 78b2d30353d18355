// Tests the generated key scan routine on many kinds of boards. The routine must assemble and find the pressed key.
import assert from "node:assert/strict";
import { test } from "node:test";
import { readBoard } from "../core/bench/answers.js";
import { createKeyScanSource, createRoutineInsertion } from "../core/drawing/scan_routine.js";
import { sentText } from "../core/text/sendable_text.js";
import { Engine } from "../core/engine/engine.js";
import { examplesOfPage, pageModule } from "./page_session.js";

const enginePromise = Engine.load(pageModule);

/**
 * Returns the text of a board with a key matrix. `clock` and `data` are the lines of its shift-register chain, and `chips` the number of
 * 4003s.
 */
const boardOf = ({ clock = "rom0.0", data = "rom0.1", chips = 1, first = 0, rows = 4, columns }) => `
[[rom]]
chip = 0
port = "ii00"
[[rom]]
chip = 3
port = "iiii"
[[rom]]
chip = 5
port = "0ii0"
[[ram]]
bank = 2
chips = 4
[[chain]]
clock = "${clock}"
data = "${data}"
chips = ${chips}
[keys]
chain = 0
first = ${first}
rows = ${rows}
columns = [${columns.map((line) => `"${line}"`).join(", ")}]
`;
const FOUR_COLUMNS = ["rom3.0", "rom3.1", "rom3.2", "rom3.3"];
const BOARDS = {
  "four columns of a port": boardOf({ columns: FOUR_COLUMNS }),
  "columns in another order, of several ports": boardOf({ columns: ["rom3.2", "rom0.3", "rom5.1", "rom3.0", "rom5.2", "rom0.2"] }),
  "ten rows, eight columns": boardOf({ rows: 10, columns: [...FOUR_COLUMNS, ...FOUR_COLUMNS.slice(0, 2), "rom5.1", "rom5.2"].slice(0, 8) }),
  "one key": boardOf({ rows: 1, columns: ["rom0.2"] }),
  "rows that begin later": boardOf({ first: 6, columns: FOUR_COLUMNS }),
  "rows that begin at bit 16": boardOf({ first: 16, chips: 2, rows: 3, columns: FOUR_COLUMNS }),
  "rows that begin at bit 37": boardOf({ first: 37, chips: 5, rows: 2, columns: FOUR_COLUMNS.slice(1) }),
  "clock and data of other ports": boardOf({ clock: "rom5.3", data: "rom0.0", columns: FOUR_COLUMNS }),
  "clock and data of a RAM chip": boardOf({ clock: "ram2.3.3", data: "ram2.3.0", columns: FOUR_COLUMNS }),
  "clock of a RAM chip, data of another one": boardOf({ clock: "ram2.0.1", data: "ram2.1.2", first: 2, columns: FOUR_COLUMNS }),
  "the calculator's": examplesOfPage.find(({ name }) => name === "calculator").board,
};
/** A number of cycles in which the routine completes at least two scans. */
const TWO_SCANS_CYCLES = 30000;

/** Serves lines in a session, and returns the answers. */
function serveLines(engine, session, lines) {
  const { answers } = engine.serve(session, lines, session);
  return answers;
}

for (const [name, text] of Object.entries(BOARDS)) {
  test(`the routine finds each key: ${name}`, async () => {
    const engine = await enginePromise;
    const session = engine.begin();
    const wireAnswers = serveLines(engine, session, `wire\n${sentText(text, "#")}.\n`);
    assert.match(wireAnswers[0], /^ok/, wireAnswers.join());
    const board = readBoard(engine.ask(session, "board\n").answers);
    const code = createKeyScanSource(board, "; a source without instructions\n");
    const [assembleAnswer] = serveLines(engine, session, `asm\n${sentText(code, ";")}.\n`);
    assert.match(assembleAnswer, /^ok \d+ bytes \d+$/, code);
    const { rows, columns } = board.matrix;
    const label = /^start: *JMS (\w+)/.exec(code)[1];
    assert.equal(label, "keys_scan");
    const scanKeys = (lines) => {
      const regs = serveLines(engine, session,
        `${lines}run ${TWO_SCANS_CYCLES}\nbreak 2\nrun ${TWO_SCANS_CYCLES}\nunbreak 2\nregs\n`).pop();
      const [, acc, registers] = /^acc (.) .* r (.{16}) /.exec(regs);
      return [acc, registers[4], registers[5]].join("");
    };
    assert.equal(scanKeys("reset\n")[0], "0", "no key is down");
    for (let row = 0; row < rows; row++) {
      for (let column = 0; column < columns.length; column++) {
        const firstColumn = columns.indexOf(columns[column]);
        assert.equal(scanKeys(`press ${row} ${column}\n`), `1${row.toString(16).toUpperCase()}${firstColumn}`, `key ${row}.${column}`);
        assert.equal(scanKeys(`release ${row} ${column}\n`)[0], "0");
      }
    }
  });
}

test("labels of the source are not reused, and a source with instructions keeps its beginning", async () => {
  const board = { chains: [{ clock: "rom0.0", data: "rom0.1", chips: 1 }], matrix: { chain: 0, first: 0, rows: 1, columns: ["rom0.2"] } };
  const firstRoutine = createKeyScanSource(board, "loop: NOP\n JUN loop\n");
  assert.match(firstRoutine, /^; Scans the keys: bit 0 of chain 0 drives row 0; columns are read at the port of ROM 0\.\n/);
  assert.match(firstRoutine, /^keys_scan: +LDM 0$/m);
  assert.match(createKeyScanSource(board, firstRoutine), /^keys1_scan: /m);
  assert.match(createKeyScanSource(board, firstRoutine + createKeyScanSource(board, firstRoutine)), /^keys2_scan: /m);
  assert.equal(createKeyScanSource({ ...board, matrix: null }, ""), "");
});

test("a routine is inserted after the caret's paragraph, or at the end, with blank lines around it", () => {
  const insertRoutine = (text, line) => {
    const { edit, first, isEnd } = createRoutineInsertion(text, line, "scan: BBL 0\n");
    return [text.slice(0, edit.from) + edit.insert + text.slice(edit.to), first, isEnd];
  };
  assert.deepEqual(insertRoutine("", 0), ["scan: BBL 0\n", 1, true]);
  assert.deepEqual(insertRoutine("", 1), ["scan: BBL 0\n", 1, true]);
  assert.deepEqual(insertRoutine("\n\nNOP\n", 1), ["scan: BBL 0\n\nNOP\n", 1, false]);
  assert.deepEqual(insertRoutine("NOP\nCLB\n", 0), ["NOP\nCLB\n\nscan: BBL 0\n", 4, true]);
  assert.deepEqual(insertRoutine("NOP\nCLB\n\n\n", 2), ["NOP\nCLB\n\nscan: BBL 0\n", 4, true]);
  assert.deepEqual(insertRoutine("NOP\n  CLB\n", 1), ["NOP\n\nscan: BBL 0\n\n  CLB\n", 3, false]);
  assert.deepEqual(insertRoutine("NOP\n \n\n  CLB", 2), ["NOP\n\nscan: BBL 0\n\n  CLB", 3, false]);
  assert.deepEqual(insertRoutine("NOP\n \n\n  CLB", 3), insertRoutine("NOP\n \n\n  CLB", 1));
});
