// Tests the parsing of the bench's answers, in the form that docs/MANUAL.md shows.
import assert from "node:assert/strict";
import { test } from "node:test";
import {
  isRefusalOrStop, readBoard, readListing, readMap, readItems, readRam, readRegisters, readRun, parseRefusal, watchedPlaces,
} from "../core/bench/answers.js";
import { ADDRESS_COUNT, NO_BYTE, parseRomBytes } from "../core/bench/rom_bytes.js";
import { ForecastAnswers, parseTraceLine, rowValues } from "../core/engine/forecast_answers.js";

test("refusals with and without a line number", () => {
  assert.deepEqual(parseRefusal("no 34 line 2"), { number: 34, line: 2 });
  assert.deepEqual(parseRefusal("no 90"), { number: 90, line: 0 });
  for (const line of ["ok 5", "no", "no way", "no 34 line", "xno 34"]) assert.equal(parseRefusal(line), null);
});

test("the answer to a run has its cycles and the reason for the stop", () => {
  assert.deepEqual(readRun("ok 21 ran 11 watch"), { cycles: 11, end: "watch" });
  for (const line of ["ok 22", "no 41", "seq 3"]) assert.equal(readRun(line), null);
});

test("answers with an early stop or a refusal end a series of steps", () => {
  const answers = ["ok 23 ran 70 end", "ok 5", "ok 21 ran 11 watch", "no 41", "seq 3"];
  assert.deepEqual(answers.map(isRefusalOrStop), [false, false, true, true, false]);
});

test("the answer to `regs` is parsed", () => {
  assert.deepEqual(readRegisters("acc 6 cy 0 pc 00A owed 0 dcl 0 test 1 r 1000000000000000 ret 000 000 000"), {
    accumulator: "6", carry: "0", counter: "00A", owed: "0", bank: "0", test: "1", registers: [..."1000000000000000"],
    returns: ["000", "000", "000"],
  });
});

test("the answer to `ram` is parsed", () => {
  const ram = readRam(["ram 0 chips 1", "0.0.0 2000000000000000 0000", "0.0.1 0000000000000000 0020", "0.0 out 1"]);
  assert.deepEqual([...ram.registers], [
    ["0.0.0", { characters: "2000000000000000", status: "0000" }], ["0.0.1", { characters: "0000000000000000", status: "0020" }]]);
  assert.deepEqual([...ram.ports], [["0.0", "1"]]);
});

test("the bytes of ROM are read from listing lines with one and with two bytes", () => {
  const answer = ["list 0 4", "000 D3    LDM 3", "001 24 5F FIM P2 0x5F", "003 40 0C JUN 0x00C", "FFE 50 A0 JMS 0x0A0", "ok 3"];
  const bytes = parseRomBytes(answer);
  const addressesWithBytes = [...bytes].flatMap((byte, address) => (byte === NO_BYTE ? [] : [[address, byte]]));
  assert.deepEqual(addressesWithBytes, [[0, 0xD3], [1, 0x24], [2, 0x5F], [3, 0x40], [4, 0x0C], [0xFFE, 0x50], [0xFFF, 0xA0]]);
  assert.equal(bytes.length, ADDRESS_COUNT);
});

test("the answers to `breaks` and `watches` are parsed", () => {
  assert.deepEqual(readItems("breaks 000 003"), ["000", "003"]);
  assert.deepEqual(readItems("watches -"), []);
});

test("the answer to `watches` names the watched nibbles", () => {
  assert.deepEqual(watchedPlaces("watches 0.3F 7.00"), ["ram.0.0x3F", "ram.7.0x00"]);
  assert.deepEqual(watchedPlaces("watches -"), []);
});

test("the answer to `map` has the addresses of a program's lines and names", () => {
  const answers = ["map lines 3 names 2", "line 1 000 0", "line 2 FFF 1", "line 3 1000 0", "name time 00C", "name go FFF"];
  assert.deepEqual(readMap(answers), {
    lines: [{ line: 1, address: 0, size: 0 }, { line: 2, address: 0xFFF, size: 1 }, { line: 3, address: 0x1000, size: 0 }],
    names: [{ name: "time", value: 12 }, { name: "go", value: 0xFFF }],
  });
  for (const answersWithoutMap of [[], ["no 31 line 2"], ["map lines 0 names 0"]]) {
    assert.deepEqual(readMap(answersWithoutMap), { lines: [], names: [] });
  }
});

test("forecasts of a run are read among other answers", () => {
  const answers = new ForecastAnswers([
    "trace ran 3 end lines 2 0 -", "0 000 1 -", "2 00A 2 *", "count ran 3 code lines 2", "000 1", "00A 12 3",
    "ok 7 ran 3 code", "no 11"]);
  const { row, lines, cycles } = answers.takeTrace();
  assert.deepEqual([rowValues(row), lines.map(parseTraceLine), cycles],
    [["0", "-"], [{ cycles: 0, address: 0, row: " 1 -" }, { cycles: 2, address: 10, row: " 2 *" }], 3]);
  assert.deepEqual(answers.takeCounts(), [{ address: 0, startCount: 1, jumpCount: -1 }, { address: 10, startCount: 12, jumpCount: 3 }]);
  assert.deepEqual([answers.takeRun(), answers.takeRun()], [{ cycles: 3, end: "code" }, { cycles: 0, end: "no 11" }]);
  assert.equal(answers.isEmpty, true);
});

test("listing lines are read, and other answers between them are skipped", () => {
  assert.deepEqual(readListing(["000 40 24 JUN 0x024", "ok 7", "002 00    NOP"]),
    [{ address: 0, line: "000 40 24 JUN 0x024" }, { address: 2, line: "002 00    NOP" }]);
});

test("the answer to `board` is parsed", () => {
  const board = readBoard(["board", "[[rom]]", "chip = 0", 'port = "00ii"', "[[ram]]", "bank = 1", "chips = 2", "[[chain]]",
    'clock = "rom0.0"', 'data = "rom0.1"', "chips = 1", "[keys]", "chain = 0", "first = 0", "rows = 3", 'columns = ["rom0.2", "rom0.3"]',
    "[[lamp]]", 'line = "ram1.0.2"']);
  assert.deepEqual(board.lamps, ["ram1.0.2"]);
  assert.deepEqual([board.rows, board.columns], [3, 2]);
  assert.deepEqual(board.banks.map(({ bank, chips }) => [bank, chips]), [[1, 2]]);
  assert.deepEqual(board.chains.map(({ clock, data, chips }) => [clock, data, chips]), [["rom0.0", "rom0.1", 1]]);
  assert.deepEqual([board.matrix.chain, board.matrix.first, board.matrix.columns], [0, 0, ["rom0.2", "rom0.3"]]);
  assert.deepEqual(readBoard(["board"]), { banks: [], chains: [], roms: [], lamps: [], rows: 0, columns: 0, matrix: null });
});
