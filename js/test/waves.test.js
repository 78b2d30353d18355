// Tests recordings: lines, their values in the bench's answers, edges, and VCD files. The board and the answers are those of the tutorial
// in the manual.
import assert from "node:assert/strict";
import { test } from "node:test";
import { readBoard } from "../core/bench/answers.js";
import { vcdParts } from "../core/waves/vcd.js";
import { listRecordableLines, searchLines, listChosenValueNames } from "../core/waves/wave_catalog.js";
import { createBoardLines, createValueLine } from "../core/waves/wave_lines.js";
import { ForecastAnswers } from "../core/engine/forecast_answers.js";
import { WaveBuilder } from "../core/engine/wave_builder.js";
import { countUpTo } from "../core/waves/number_queue.js";
import { Waves } from "../core/waves/wave_recording.js";

const BOARD = readBoard([
  "board", "[[rom]]", "chip = 0", 'port = "0000"', "[[rom]]", "chip = 1", 'port = "iiii"', "[[rom]]", "chip = 2", 'port = "iiii"',
  "[[ram]]", "bank = 0", "chips = 1", "[[ram]]", "bank = 1", "chips = 1", "[[chain]]", 'clock = "rom0.0"', 'data = "rom0.1"', "chips = 1",
  "[keys]", "chain = 0", "first = 0", "rows = 10",
  'columns = ["rom1.0", "rom1.1", "rom1.2", "rom1.3", "rom2.0", "rom2.1", "rom2.2", "rom2.3"]',
  "[[lamp]]", 'line = "chain0.0"', "[[lamp]]", 'line = "chain0.1"', "[[lamp]]", 'line = "ram0.0.3"',
]);
const STATE = "state seq 8 acc 6 cy 0 pc 00A owed 0 dcl 0 test 1 r 1000000000000000 ret 000,000,000 src 10 banks 0.10,1.00 "
  + "roms 0.3.0,1.0.6,2.0.0 rams 0.0.0,1.0.0 chains 1100000000 keys 0.1,1.2 lamps **. breaks 003,00F watches 0.3F";
const TEXT = "# row 0: 7 CE =\n# lamp 1: minus over.flow\n";

/** Returns STATE with some values changed. */
function stateWith(changes) {
  return Object.entries(changes).reduce((state, [key, value]) => state.replace(new RegExp(` ${key} \\S+`), ` ${key} ${value}`), STATE);
}

function linesWith(hasLabels = false, values = []) {
  return createBoardLines(BOARD, TEXT, hasLabels, values);
}

function lineIndexOf(lines, name) {
  return lines.findIndex((line) => line.name === name);
}

test("the lines of a board have names from the manual and from the board's text", () => {
  const names = linesWith(true).map(({ name }) => name);
  assert.deepEqual(names.slice(0, 12), [0, 1, 2].flatMap((rom) => [0, 1, 2, 3].map((line) => `rom${rom}.${line}`)));
  assert.deepEqual(names.slice(12, 20), [0, 1].flatMap((bank) => [0, 1, 2, 3].map((line) => `ram${bank}.0.${line}`)));
  assert.deepEqual(names.slice(20, 30), [..."0123456789"].map((bit) => `chain0.${bit}`));
  assert.deepEqual(names.slice(30, 33), ["lamp0", "lamp.minus", "lamp2"]);
  assert.deepEqual(names.slice(33, 37), ["key.7", "key.CE", "key0.2", "key0.3"]);
  const ports = ["rom0[3:0]", "rom1[3:0]", "rom2[3:0]", "ram0.0[3:0]", "ram1.0[3:0]", "chain0[9:0]"];
  assert.deepEqual(names.slice(-12), ["key9.7", "test", ...ports, "shift.chain0", "scan.keys", "pc", "label"]);
  assert.equal(names.length, 12 + 8 + 10 + 3 + 80 + 3 + 6 + 2);
});

test("each line has a place: a lamp's is its output line, and a key's its row and column", () => {
  const firstPlaces = (lineKind) => linesWith().filter(({ kind }) => kind === lineKind).map(({ places: [place] }) => place);
  assert.deepEqual(firstPlaces("level").slice(-3), ["chain0.0", "chain0.1", "ram0.0.3"]);
  assert.deepEqual(firstPlaces("key").slice(0, 9), ["0.0", "0.1", "0.2", "0.3", "0.4", "0.5", "0.6", "0.7", "1.0"]);
  const otherBoard = readBoard(["board", "[[rom]]", "chip = 12", 'port = "i0i1"', "[[rom]]", "chip = 3", 'port = "0000"']);
  assert.deepEqual(createBoardLines(otherBoard, "", false).map(({ name }) => name),
    [...["rom3", "rom12"].flatMap((rom) => [0, 1, 2, 3].map((line) => `${rom}.${line}`)), "test", "rom3[3:0]", "rom12[3:0]", "pc"]);
});

test("ports and chains are requested as a whole, once each, at most sixteen places in a query", () => {
  const queries = new WaveBuilder(linesWith()).queries(100).split("\n");
  assert.deepEqual(queries, ["trace 100", "trace 100 rom0 rom1 rom2 ram0.0 ram1.0 chain0", ""]);
  const names = ["p2", "r4", ...[..."0123456789"].map((digit) => `ram.0.0x0${digit}`)];
  const queriesWithValues = new WaveBuilder(linesWith(false, names)).queries(7).split("\n");
  assert.deepEqual(queriesWithValues.map((line) => line.split(" ").length), [2, 8, 14, 1]);
  const characters = [..."0123456789"].map((digit) => `ram.0.0x0${digit}`).join(" ");
  assert.equal(queriesWithValues[2], `trace 7 r4 r5 ${characters}`);
});

test("value lines are created by name, unless the board lacks the place", () => {
  const describeValueLine = (text) => {
    const line = createValueLine(text, BOARD);
    return line && [line.name, line.places.join(" "), line.width, line.group];
  };
  assert.deepEqual(describeValueLine("R5"), ["r5", "r5", 4, "registers"]);
  assert.deepEqual(describeValueLine("P2"), ["p2", "r4 r5", 8, "registers"]);
  assert.deepEqual([describeValueLine("cy")[2], describeValueLine("dcl")[2], describeValueLine("src")[2]], [1, 3, 8]);
  assert.deepEqual(describeValueLine("ram 0 0x12"), ["ram.0.0x12", "ram.0.0x12", 4, "RAM, bank 0"]);
  assert.deepEqual(describeValueLine("ram.1.18"), ["ram.1.0x12", "ram.1.0x12", 4, "RAM, bank 1"]);
  assert.deepEqual(describeValueLine("st 0 1 2"), ["st.0.1.2", "st.0.1.2", 4, "RAM, bank 0"]);
  for (const text of ["r16", "p8", "ram 0 0x40", "ram 2 0", "st 0 4 0", "rom0", "ram0.0", "lamps", "lamp 0", "chain0.1", "pc", ""]) {
    assert.equal(describeValueLine(text), null, text);
  }
  assert.deepEqual(linesWith(false, ["r5", "r16", "p2"]).slice(-3).map(({ name }) => name), ["r5", "p2", "pc"]);
});

test("titles come from the board's text for ports, and for names that a file cannot contain", () => {
  const lines = createBoardLines(BOARD, `${TEXT}# port rom1: keys here\n`, false);
  const titles = Object.fromEntries(lines.map(({ name, title }) => [name, title]));
  assert.deepEqual([titles["rom1.2"], titles["rom1[3:0]"], titles["rom0.2"]], ["keys here, line 2", "keys here", ""]);
  assert.deepEqual([titles.lamp2, titles["key0.2"], titles["lamp.minus"]], ["over.flow", "=", ""]);
});

test("recordable lines are found by words", () => {
  const recordableLines = listRecordableLines(BOARD, TEXT);
  const findNames = (text, chosen = []) => searchLines(recordableLines, text, new Set(chosen)).lines.map(({ name }) => name);
  assert.ok(findNames("").includes("r5") && findNames("").includes("rom0[3:0]") && !findNames("").includes("ram.0.0x12"));
  assert.ok(findNames("", ["ram.0.0x12"]).includes("ram.0.0x12"));
  assert.deepEqual(findNames("ram 0 0x12"), ["ram.0.0x12"]);
  assert.deepEqual(findNames("minus"), ["lamp.minus"]);
  assert.deepEqual(findNames("over.fl"), ["lamp2"]);
  assert.deepEqual(findNames("p2"), ["p2"]);
  assert.match(searchLines(recordableLines, "", new Set()).note, /^160 nibbles of RAM are not listed: find one, as in: ram 0 0x12/);
  assert.equal(searchLines(recordableLines, " rubbish ", new Set()).note, "Nothing here is called rubbish.");
  assert.deepEqual(listChosenValueNames(recordableLines, new Set(["r5", "lamp2", "st.1.3.0", "gone"])), ["r5", "st.1.3.0"]);
});

/** The initial values of places. All other places are 0. */
const LEVELS = { "rom0.0": 1, "rom0.1": 1, "rom1.1": 1, "rom1.2": 1, "chain0.0": 1, "chain0.1": 1 };

/**
 * Returns the bench's answers to the queries of a recording. `levels` has the initial values of places. Each instruction is a list: the
 * cycles before it, its address, and the values that it changes.
 */
function answersOf({ groups }, levels, instructions = []) {
  const currentLevels = { ...levels };
  const levelsOf = (place, count, values) => Array.from({ length: count }, (_, line) => values[`${place}.${line}`] || 0);
  const digitOf = (bits) => bits.reduce((sum, level, line) => sum + level * 2 ** line, 0).toString(16).toUpperCase();
  const answerOf = (place, values) => {
    if (place.startsWith("chain")) return levelsOf(place, 10, values).join("");
    return values[place] || digitOf(levelsOf(place, 4, values));
  };
  const rowOf = ({ fields }, values) => fields.map(({ place }) => ` ${answerOf(place, values)}`).join("");
  const rows = instructions.map(([cycles, address, changes]) => {
    const before = { ...currentLevels };
    Object.assign(currentLevels, changes);
    return { cycles, address, before, after: { ...currentLevels } };
  });
  const addHeadLine = (lines, row) => [`trace ran 9 end lines ${lines.length}${row}`, ...lines];
  const formatChanges = (group) => rows.filter(({ before, after }) => rowOf(group, before) !== rowOf(group, after))
    .map(({ cycles, address, after }) => `${cycles} ${address}${rowOf(group, after)}`);
  return [...addHeadLine(rows.map(({ cycles, address }) => `${cycles} ${address}`), ""),
    ...groups.flatMap((group) => addHeadLine(formatChanges(group), rowOf(group, levels)))];
}

/** Returns a recording that begins with a state. `values` names the values to record besides the lines. */
function beginRecording(state = STATE, values = []) {
  const builder = new WaveBuilder(linesWith(false, values));
  builder.begin(new ForecastAnswers([state, ...answersOf(builder, LEVELS)]));
  return builder;
}

/** Adds a run to a recording, and then the state after the run: STATE with `changes`. Returns the recording. */
function addRun(builder, levels, instructions, answer, changes) {
  builder.recordRun(new ForecastAnswers([...answersOf(builder, levels, instructions), answer]));
  builder.recordState(stateWith(changes));
  return builder;
}

const textOf = (waves, chosenLines) => [...vcdParts(waves, chosenLines)].join("");

const PROGRAM = [[0, "00A", { "rom0.1": 0 }], [1, "00B", { "ram0.0.3": 1 }], [2, "00C", {}], [4, "00A", { "rom0.1": 1 }]];

/** Records at most `cycles` cycles of PROGRAM: four instructions, the third one with two cycles. With more than 5 cycles, the recording
 * ends at an invalid opcode. */
function recordProgram(cycles) {
  const instructions = PROGRAM.filter(([before]) => before < cycles);
  if (cycles > 5) return addRun(beginRecording(), LEVELS, instructions, "ok 9 ran 5 code", { pc: "00B" });
  const ends = { 3: { pc: "00E", owed: "1" }, 4: { pc: "00A" } };
  return addRun(beginRecording(), LEVELS, instructions, `ok 9 ran ${cycles} end`, ends[cycles]);
}

const LISTING = [[0x00a, "00A E2    WRR"], [0x00b, "00B E1    WMP"], [0x00c, "00C 40 0A JUN 0x00A"]];

function wavesOf(builder, program = null) {
  return new Waves({ ...builder.take(), lines: builder.lines, listing: LISTING, program });
}

test("changes are at the moment after their instruction", () => {
  const waves = wavesOf(recordProgram(100));
  const changesOf = (name) => [...waves.changesOf(lineIndexOf(waves.lines, name))];
  assert.deepEqual(["rom0.1", "lamp2", "ram0.0.3", "test", "rom0.0"].map(changesOf), [[1, 5], [2], [2], [], []]);
  assert.deepEqual(changesOf("pc"), [1, 2, 4, 5]);
  assert.deepEqual([waves.cycles, waves.isStuck], [5, true]);
});

test("a recording ends at its last cycle, even inside an instruction", () => {
  const waves = wavesOf(recordProgram(3));
  assert.deepEqual([waves.cycles, waves.isStuck], [3, false]);
  assert.deepEqual([...waves.changesOf(lineIndexOf(waves.lines, "pc"))], [1, 2]);
  assert.equal(wavesOf(recordProgram(4)).counterAt(4), 0x00a);
});

test("a refusal by the bench is an error", () => {
  assert.throws(() => beginRecording().recordRun(new ForecastAnswers(["no 90"])), /no 90/);
  assert.throws(() => addRun(beginRecording(), LEVELS, [], "no 46", {}), /no 46/);
});

test("a two-cycle instruction is recorded once, and commands between cycles take no time", () => {
  const builder = beginRecording();
  addRun(builder, LEVELS, [[0, "00A", {}]], "ok 9 ran 1 end", { pc: "020", owed: "1" });
  builder.recordState(stateWith({ pc: "020", owed: "1", keys: "0.1" }));
  addRun(builder, { ...LEVELS, "rom1.1": 0 }, [], "ok 11 ran 1 break", { pc: "020", keys: "0.1" });
  builder.recordState(stateWith({ pc: "020", keys: "0.1", test: "0" }));
  builder.recordState(stateWith({ pc: "020", keys: "0.1" }));
  builder.recordState(stateWith({ pc: "030", keys: "0.1" }));
  addRun(builder, { ...LEVELS, "rom1.1": 0 }, [[0, "030", { "rom0.0": 0 }]], "ok 15 ran 1 watch", { pc: "031", keys: "0.1" });
  builder.recordState(stateWith({ pc: "031", keys: "0.1", test: "0" }));
  const waves = wavesOf(builder);
  const changesOf = (name) => [...waves.changesOf(lineIndexOf(waves.lines, name))];
  assert.deepEqual(["key1.2", "rom1.1", "rom0.0", "test", "pc"].map(changesOf), [[1], [1], [3], [3], [2, 3]]);
  assert.deepEqual([0, 1, 2, 3].map((moment) => waves.counterAt(moment)), [0x00a, 0x00a, 0x030, 0x031]);
});

test("the value at a moment and the edges around it", () => {
  const waves = wavesOf(recordProgram(100));
  const dataLine = lineIndexOf(waves.lines, "rom0.1");
  assert.deepEqual([0, 1, 4, 5].map((moment) => waves.valueAt(dataLine, moment)), ["1", "0", "0", "1"]);
  assert.equal(waves.changeAfter(dataLine, 0), 1);
  assert.equal(waves.changeAfter(dataLine, 1), 5);
  assert.equal(waves.changeAfter(dataLine, 5), undefined);
  assert.equal(waves.changeBefore(dataLine, 5), 1);
  assert.equal(waves.changeBefore(dataLine, 1), undefined);
  assert.deepEqual([0, 2, 3, 4].map((moment) => waves.valueAt(lineIndexOf(waves.lines, "pc"), moment)), ["00A", "00C", "00C", "00A"]);
});

test("a port is shown as a number in three bases", () => {
  const waves = wavesOf(recordProgram(100));
  const [port, chain] = ["rom0[3:0]", "chain0[9:0]"].map((name) => lineIndexOf(waves.lines, name));
  assert.deepEqual([...waves.changesOf(port)], [1, 5]);
  assert.deepEqual([0, 1, 5].map((moment) => waves.valueAt(port, moment)), ["3", "1", "3"]);
  assert.equal(waves.valueAt(chain, 0), "003");
  waves.base = "binary";
  assert.deepEqual([waves.valueAt(port, 1), waves.valueAt(chain, 2)], ["0001", "0000000011"]);
  waves.base = "decimal";
  assert.equal(waves.valueAt(chain, 2), "3");
  assert.deepEqual([waves.changeAfter(port, 1), waves.changeBefore(port, 5)], [5, 1]);
});

test("registers, pairs and RAM characters are recorded", () => {
  const builder = beginRecording(STATE, ["r5", "p2", "ram.0.0x12"]);
  const values = { r4: "0", r5: "7", "ram.0.0x12": "9" };
  addRun(builder, LEVELS, [[0, "00A", values], [1, "00B", { r4: "A", r5: "0" }], [2, "00C", { r5: "F" }]], "ok 9 ran 4 end", { pc: "00A" });
  const waves = wavesOf(builder);
  const changesOf = (name) => {
    const line = lineIndexOf(waves.lines, name);
    return [...waves.changesOf(line)].map((moment) => `${moment} ${waves.valueAt(line, moment)}`);
  };
  assert.deepEqual([changesOf("r5"), changesOf("p2"), changesOf("ram.0.0x12")], [["1 7", "2 0", "3 F"], ["1 07", "2 A0", "3 AF"], ["1 9"]]);
});

test("a recording can be extended, and cut at both ends", () => {
  const wholeWaves = wavesOf(recordProgram(4));
  const builder = beginRecording();
  addRun(builder, LEVELS, PROGRAM.slice(0, 1), "ok 9 ran 1 end", { pc: "00B" });
  const recording = wavesOf(builder);
  const laterLevels = { ...LEVELS, "rom0.1": 0 };
  const shiftedProgram = PROGRAM.slice(1, 3).map(([cycles, ...rest]) => [cycles - 1, ...rest]);
  const pc = lineIndexOf(recording.lines, "pc");
  assert.deepEqual([...recording.changesOf(pc)], [1]);
  addRun(builder, laterLevels, shiftedProgram, "ok 10 ran 3 end", { pc: "00A" });
  recording.append({ ...builder.take(), listing: [] });
  assert.equal(textOf(recording, recording.lines.map((_, line) => line)), textOf(wholeWaves, wholeWaves.lines.map((_, line) => line)));
  recording.beginAt(2);
  const dataLine = lineIndexOf(recording.lines, "rom0.1");
  assert.deepEqual([recording.from, recording.length, recording.valueAt(dataLine, 2), [...recording.changesOf(pc)]], [2, 2, "0", [4]]);
  assert.deepEqual([recording.counterAt(2), recording.counterAt(3)], [0x00c, 0x00c]);
  assert.equal(recording.valueAt(lineIndexOf(recording.lines, "lamp2"), 2), "1");
  recording.endAt(3);
  assert.deepEqual([recording.cycles, [...recording.changesOf(pc)], recording.counterAt(3)], [3, [], 0x00c]);
});

test("the instruction at a moment is found in both of its cycles", () => {
  const waves = wavesOf(recordProgram(100), {
    text: "stop: NOP\n  JUN go ; on", lines: new Uint16Array(4096).fill(2, 0x00c, 0x00e), labels: [{ address: 0x00b, name: "stop" }],
  });
  for (const moment of [2, 3]) {
    const { address, listingLine, line, source, isEnd } = waves.instructionAt(moment);
    assert.deepEqual([address, listingLine, line, source, isEnd], [0x00c, "00C 40 0A JUN 0x00A", 2, "JUN go ; on", false]);
  }
  assert.deepEqual([waves.instructionAt(0).line, waves.instructionAt(5).isEnd], [0, true]);
  assert.deepEqual([waves.labelAt(0), waves.labelAt(1), waves.labelAt(3)], ["", "stop", "stop"]);
});

test("the first sample can be the second cycle of an instruction", () => {
  const builder = addRun(beginRecording(stateWith({ owed: "1" })), LEVELS, [], "ok 9 ran 1 end", {});
  assert.deepEqual([wavesOf(builder).instructionAt(0).isSecond, wavesOf(builder).instructionAt(1).isSecond], [true, false]);
});

test("a VCD file has 108 units of 100 ns for each cycle, and the lines in the chosen order", () => {
  const waves = wavesOf(recordProgram(100));
  const text = textOf(waves, ["lamp2", "rom0.1", "pc"].map((name) => lineIndexOf(waves.lines, name)));
  const port = textOf(waves, [lineIndexOf(waves.lines, "rom0[3:0]")]);
  assert.match(port, /\$var wire 4 A rom0\[3:0\] \$end\n[^]*\nb0011 A\n\$end\n#108\nb0001 A\n#540/);
  assert.equal(text, `$version Fethsaim $end
$comment 108 units of time are a cycle of the 4004, 10.8 microseconds $end
$timescale 100 ns $end
$scope module board $end
$var wire 1 A lamp2 $end
$var wire 1 C rom0.1 $end
$var wire 12 D pc $end
$upscope $end
$enddefinitions $end
#0
$dumpvars
0A
1C
b000000001010 D
$end
#108
0C
b000000001011 D
#216
1A
b000000001100 D
#432
b000000001010 D
#540
1C
b000000001011 D
`);
});

test("a VCD file ends with the end of the recording", () => {
  const waves = wavesOf(recordProgram(3));
  const text = textOf(waves, [lineIndexOf(waves.lines, "test")]);
  assert.match(text, /#0\n\$dumpvars\n1A\n\$end\n#324\n$/);
});

test("each line has its own short name in a VCD file", () => {
  const waves = wavesOf(recordProgram(3));
  const allLines = waves.lines.map((_, line) => line);
  const codes = textOf(waves, allLines).split("\n").filter((line) => line.startsWith("$var")).map((line) => line.split(" ")[3]);
  assert.equal(new Set(codes).size, allLines.length);
  assert.deepEqual([codes[0], codes[21], codes[22], codes[43], codes[44]], ["A", "Y", "AA", "AY", "CA"]);
});

test("sorted numbers up to a limit are counted", () => {
  assert.deepEqual([0, 1, 2, 5, 9].map((limit) => countUpTo([1, 2, 5], limit)), [0, 1, 2, 3, 3]);
});
