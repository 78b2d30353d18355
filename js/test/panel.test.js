// Tests the front panel that mcs4 shows at a terminal, without a terminal: time, keys, the picture and the rows of the screen. The expected
// values come from the bench's module.
import assert from "node:assert/strict";
import { readFileSync } from "node:fs";
import { test } from "node:test";
import { readBoard } from "../core/bench/answers.js";
import { stateValue } from "../core/bench/state_line.js";
import { Face } from "../core/board/face.js";
import { Engine } from "../core/engine/engine.js";
import { compareWithRom } from "../core/engine/session_program.js";
import { readRomCodes } from "../core/engine/rom_codes.js";
import { buildLampRows, formatCell } from "../core/panel/lamp_rows.js";
import { largeDigitRows } from "../core/panel/large_digits.js";
import { Panel } from "../core/panel/terminal_panel.js";
import { Screen, fitsPanel, countMiddleRows } from "../core/panel/screen.js";
import { splitKeys } from "../core/panel/terminal_keys.js";
import { sentText } from "../core/text/sendable_text.js";
import { PanelTerminal } from "../node/panel_terminal.mjs";
import { pageModule } from "./page_session.js";

const engine = new Engine(new globalThis.WebAssembly.Module(pageModule));
const readExample = (name) => readFileSync(new URL(`../../examples/${name}`, import.meta.url), "utf8");
const CALCULATOR = { board: readExample("calculator/board.toml"), program: readExample("calculator/calculator.asm") };
const PRINTING = { board: readExample("printing_calculator/board.toml"),
  program: readExample("printing_calculator/printing_calculator.asm") };
const TERMINAL_SIZE = { rows: 24, columns: 80 };
const SECOND_MS = 1000;

/** A program that counts in R0 to R3, and a board with two keys, a lamp and one RAM chip. */
const COUNTER = {
  board: `# title: Own\n# row 0: a CE\n# row 1: _ _
rom = [{ chip = 0, port = "00ii" }]\nram = [{ bank = 2, chips = 1 }]\nlamp = [{ line = "ram2.0.1" }]
[[chain]]\nclock = "rom0.2"\ndata = "rom0.3"\nchips = 1
[keys]\nchain = 0\nfirst = 0\nrows = 2\ncolumns = ["rom0.0", "rom0.1"]\n`,
  program: "count: ISZ R3, count ; low\n\tISZ R2, count\n ISZ R1, count\n ISZ R0, count\n JUN count\n",
};

/**
 * Resolves to a panel for a session with the given board and program. `ask` executes lines in its session, `typeKeys` types characters, and
 * `getScreenText` returns the text of the screen's rows.
 */
async function openPanel({ board, program }, { lines = "", isPaused = false, hasSource = false } = {}) {
  const state = engine.begin();
  const ask = async (sessionLines) => engine.serve(state, sessionLines, state).answers;
  const answers = await ask(`wire\n${sentText(board, "#")}.\nasm\n${program}.\n${lines}`);
  assert.deepEqual(answers.filter((answer) => answer.startsWith("no ")), []);
  const readSource = () => ({ map: compareWithRom(engine, readRomCodes(engine, state), program).map,
    lines: program.split("\n"), linesBefore: 0 });
  const options = {
    name: "s.mcs", board: readBoard(await ask("board\n")), face: new Face(board), note: "", isPaused,
    source: hasSource ? readSource() : null,
    describeRefusal: (number) => `words of ${number}`,
  };
  const panel = new Panel(ask, options, 0);
  const screen = new Screen(panel);
  await panel.begin();
  let now = 0;
  const typeKeys = async (keys) => {
    for (const key of splitKeys(keys)) {
      await panel.handleKey(key, now);
      await panel.snapshot.refresh(countMiddleRows(TERMINAL_SIZE));
    }
  };
  /** Lets time pass, in frames of 100 ms. */
  const passTime = async (milliseconds) => {
    for (const deadline = now + milliseconds; now < deadline;) {
      now += 100;
      await panel.keepRealTime(now);
    }
    await panel.snapshot.refresh(countMiddleRows(TERMINAL_SIZE));
  };
  const getScreenRows = (size = TERMINAL_SIZE) => screen.buildRows(size).map(({ pieces }) => pieces.map(({ text }) => text).join(""));
  const getScreenText = (size = TERMINAL_SIZE) => getScreenRows(size).map((row) => row.trimEnd()).join("\n");
  return { panel, screen, ask, typeKeys, passTime, getScreenRows, getScreenText };
}

const queryKeysDown = async (ask) => stateValue((await ask("state\n"))[0], "keys");

test("terminal input is split into keys", () => {
  const keysOf = (input) => splitKeys(input).map(({ kind, text }) => `${kind} ${JSON.stringify(text)}`);
  assert.deepEqual(keysOf("a\r\u00e9"), ['character "a"', 'character "\\r"', 'character "\u00e9"']);
  assert.deepEqual(keysOf("\u001b[C\u001bOD\u001bOC1"), ['arrow "right"', 'arrow "left"', 'arrow "right"', 'character "1"']);
  assert.deepEqual(keysOf("\u001b[21~\u001bx\u001b\u001b[D"),
    ['sequence "\\u001b[21~"', 'sequence "\\u001bx"', 'escape "\\u001b"', 'arrow "left"']);
});

test("numbers are drawn in large digits", () => {
  const digitRowsOf = (number) => largeDigitRows(number).map((row) => row.trimEnd());
  assert.deepEqual(digitRowsOf("4.2"), ["         ###", "#   #       #", " ###     ###", "    #   #", "      #  ###"]);
  assert.deepEqual(digitRowsOf("-?"), ["       ###", "          #", " ###   ###", "      #", ""]);
});

test("rows of lamps: a die, a matrix, a grid, and others with names", () => {
  const formatLampRows = (text, count, isLit) => buildLampRows(new Face(text), count)
    .map((row) => row.map((cell) => formatCell(cell, cell.reader && cell.reader.isLit(isLit) ? 3 : 0)).join("").trimEnd());
  assert.deepEqual(formatLampRows("# die 0: 7 lamps\n", 7, "*..*..*"), ["*       .", ".   *   .", ".       *", ""]);
  assert.deepEqual(formatLampRows("# matrix 0: 2 rows of 2 scanned by 2\n", 4, ".**."), [". *", ". .", ""]);
  assert.deepEqual(formatLampRows("# lamp 0: red go_on _ far\n# grid 0: red 2\n# grid 1: _ go_on\n", 4, "*..*"),
    ["(*) red .", "        ( ) go on", "", "(*) far"]);
  assert.deepEqual(formatLampRows("# bar 0: 14 lamps\n", 14, `*${".".repeat(13)}`), [`*${".".repeat(13)}`, ""]);
});

test("a calculator: typed keys are pressed one after the other, and the display has large digits", async () => {
  const { typeKeys, passTime, getScreenText, panel } = await openPanel(CALCULATOR);
  await typeKeys("12+30=");
  await passTime(2 * SECOND_MS);
  assert.match(getScreenText(), /^ Desk calculator: s\.mcs {3}\d+ commands {3}running\n {7}###.* display 42\n# {3}# {5}#/);
  assert.match(getScreenText(), / 7 {5}8 {5}9 /);
  await panel.end();
  assert.deepEqual([panel.isEnded, panel.snapshot.keysDown.count], [true, 0]);
});

test("the last typed keys are processed before the panel ends", async () => {
  const { typeKeys, panel, ask } = await openPanel(CALCULATOR, { lines: "run 2000\n" });
  await typeKeys("12+30=");
  await panel.end();
  assert.equal(await queryKeysDown(ask), "-");
  await ask("run 20000\n");
  await panel.snapshot.refresh(0);
  assert.equal(panel.snapshot.display, "42");
});

test("the panel runs at the speed of the chip, and skips time that a slow host misses", async () => {
  const { panel, passTime } = await openPanel(COUNTER);
  await passTime(SECOND_MS);
  assert.ok(Math.abs(panel.cycles - 92593) <= 1, String(panel.cycles));
  await panel.keepRealTime(100 * SECOND_MS);
  assert.equal(panel.cycles - 92593 <= 20000, true);
});

test("a session at a breakpoint is paused; Enter runs one instruction; Tab toggles a breakpoint", async () => {
  const { typeKeys, getScreenText, panel } = await openPanel(COUNTER, { lines: "poke r3 15\npoke r2 3\nbreak 2\nrun 100\n" });
  await panel.snapshot.refresh(countMiddleRows(TERMINAL_SIZE));
  assert.match(getScreenText(), /paused at a breakpoint\n/);
  assert.match(getScreenText(), />\*002 72 00 ISZ R2, 0x000/);
  await typeKeys("\r");
  assert.match(getScreenText(), /commands {3}paused\n/);
  assert.match(getScreenText(), /> 000 73 00 ISZ R3, 0x000/);
  assert.match(getScreenText(), /P1 40 /);
  assert.match(getScreenText(), /2\.0\.3 0000000000000000 0000/);
  assert.match(getScreenText(), /2\.0 out 0/);
  await typeKeys("\t");
  assert.match(getScreenText(), />\*000/);
  await typeKeys("\t");
  assert.match(getScreenText(), /> 000/);
});

test("while time is paused, typing a key toggles it; a key that was down before stays down at the end", async () => {
  const { typeKeys, getScreenText, panel, ask } = await openPanel(COUNTER, { lines: "press 0 1\n", isPaused: true });
  await typeKeys("a");
  assert.match(getScreenText(), /\[a\] {3}\[CE:c\]/);
  await typeKeys("ac");
  assert.match(getScreenText(), / a {5}CE:c /);
  await typeKeys("C");
  assert.match(getScreenText(), /\[CE:c\]/);
  await typeKeys("z");
  assert.match(getScreenText(), /the board has no key z\n/);
  await typeKeys("\u001b[21~");
  assert.match(getScreenText(), /this key does nothing here; the last line lists the keys\n/);
  await typeKeys("\u0014");
  assert.match(getScreenText(), / test 0 /);
  await typeKeys("\u0012");
  const [seqAnswer] = await ask("seq\n");
  await typeKeys("\u0004");
  const finalSeq = `seq ${Number(seqAnswer.slice("seq ".length)) + 1}`;
  assert.deepEqual([panel.isEnded, await queryKeysDown(ask), await ask("seq\n")], [true, "-", [finalSeq]]);
  const otherPanel = await openPanel(COUNTER, { lines: "press 0 1\n", isPaused: true });
  const seqBefore = await otherPanel.ask("seq\n");
  await otherPanel.typeKeys("\u0003");
  assert.deepEqual([await otherPanel.ask("seq\n"), await queryKeysDown(otherPanel.ask)], [seqBefore, "0.1"]);
});

test("a rejected line is reported", async () => {
  const breakLines = Array.from({ length: 32 }, (_, index) => `break ${100 + index}\n`).join("");
  const { typeKeys, getScreenText } = await openPanel(COUNTER, { lines: breakLines, isPaused: true });
  await typeKeys("\t");
  assert.match(getScreenText(), /break 0x000 is rejected: no (\d+): words of \1\n/);
});

test("with a source, the listing has source lines, and the next line is above it", async () => {
  const { typeKeys, getScreenText } = await openPanel(COUNTER, { isPaused: true, hasSource: true });
  await typeKeys("\r");
  assert.match(getScreenText(), /\ncount, line 1: count: ISZ R3, count ; low\n/);
  assert.match(getScreenText(), /> 000 count: ISZ R3, count\n/);
  assert.match(getScreenText(), / {2}002 {3}ISZ R2, count\n/);
  assert.match(getScreenText(), / {2}00A 00 {4}NOP\n/);
});

test("lamps have levels of brightness while time is running, and their state at an instant while it is paused", async () => {
  const board = `# lamp 0: seldom mostly always never\n[[rom]]\nchip = 0\nport = "0000"\n${
    [0, 1, 2, 3].map((line) => `[[lamp]]\nline = "rom0.${line}"\n`).join("")}`;
  const program = "FIM P0, 0\nSRC P0\nloop: LDM 5\nWRR\nNOP\nLDM 6\nWRR\nFIM P1, 0\nwait: ISZ R2, wait\nJUN loop\n";
  const { passTime, typeKeys, getScreenText, screen } = await openPanel({ board, program });
  await passTime(200);
  assert.match(getScreenText(), /\(:\) seldom[^]*\(\*\) mostly[^]*\(\*\) always[^]*\( \) never/);
  const seldomPiece = screen.buildRows(TERMINAL_SIZE).flatMap(({ pieces }) => pieces).find((piece) => piece.text.includes("seldom"));
  assert.deepEqual([seldomPiece.colour, seldomPiece.level], ["red", 1]);
  await typeKeys(" ");
  assert.doesNotMatch(getScreenText(), /\(:\)/);
});

test("the panel shows the last lines of the printout, after running and after steps", async () => {
  const { typeKeys, passTime, getScreenRows, panel } = await openPanel(PRINTING);
  const readPrintout = () => {
    const panelRows = getScreenRows().map((row) => row.slice(29, 53).trimEnd());
    return panelRows.slice(panelRows.indexOf("--- printout -----------") + 1, -2).filter(Boolean).join("/");
  };
  await typeKeys("12+30=5");
  await passTime(3 * SECOND_MS);
  assert.equal(readPrintout(), "12+/30=/42");
  await typeKeys(" *");
  for (let steps = 0; steps < 20000 && readPrintout() === "12+/30=/42"; steps++) await panel.step();
  assert.equal(readPrintout(), "12+/30=/42/5");
  await typeKeys("* ");
  await typeKeys("6=2+2=");
  await passTime(4 * SECOND_MS);
  assert.equal(readPrintout(), "6=/30/2+/2=/4");
});

test("rows fit the terminal, and texts from files cannot send control characters to it", async () => {
  const hostileTexts = { ...COUNTER };
  hostileTexts.board = COUNTER.board.replace("# title: Own", `# title: O\u001b[2Jwn ${"x".repeat(200)}\n# lamp 0: go\u009b31m`);
  const { typeKeys, getScreenRows, getScreenText } = await openPanel(hostileTexts, { isPaused: true });
  await typeKeys("\u001b[C");
  for (const size of [TERMINAL_SIZE, { rows: 31, columns: 97 }]) {
    assert.deepEqual(getScreenRows(size).map((row) => [...row].length), Array(size.rows).fill(size.columns));
  }
  assert.match(getScreenText(), /^ O\\x1B\[2Jwn x+\n/);
  assert.match(getScreenText(), /\( \) go\\x9B31m/);
  // eslint-disable-next-line no-control-regex
  assert.doesNotMatch(getScreenText(), /[\u0000-\u0009\u000b-\u001f\u007f-\u009f]/);
  assert.deepEqual([fitsPanel(TERMINAL_SIZE), fitsPanel({ rows: 23, columns: 80 }), fitsPanel({ rows: 24, columns: 79 })],
    [true, false, false]);
});

test("nothing is drawn after the terminal was restored, even if a signal arrives during drawing", () => {
  const writtenTexts = [];
  const output = { ...TERMINAL_SIZE, write: (text) => writtenTexts.push(text) };
  const terminal = Object.assign(Object.create(PanelTerminal.prototype), { output, paint: null, drawnRows: [], isOn: true });
  const rows = [{ pieces: [{ text: "a row", colour: "", level: 0 }], isInverse: false }];
  terminal.draw(rows);
  assert.deepEqual(writtenTexts, ["\x1b[2J\x1b[1;1Ha row"]);
  terminal.isOn = false;
  terminal.drawnRows = [];
  terminal.draw(rows);
  terminal.drawTooSmall();
  assert.equal(writtenTexts.length, 1);
});
