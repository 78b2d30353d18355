// Tests the debugger's prompt without a terminal: commands, their output, their errors, and the completion of lines.
import assert from "node:assert/strict";
import { readFileSync } from "node:fs";
import { test } from "node:test";
import { DebugSession } from "../core/debug/debug_session.js";
import { COMMANDS, findCommand, commandHelp } from "../core/prompt/prompt_commands.js";
import { Prompt } from "../core/prompt/debugger_prompt.js";
import { View, chooseViewSize } from "../core/prompt/view.js";
import { parseCountArgument, parseCycles, findInstruction } from "../core/prompt/argument_parsers.js";
import { stepBackBy } from "../core/prompt/prompt_moves.js";
import { Engine } from "../core/engine/engine.js";
import { readPageData } from "../node/page_parts.mjs";
import { pageModule } from "./page_session.js";

const engine = new Engine(new globalThis.WebAssembly.Module(pageModule));
const pageData = readPageData();
const readExample = (name) => readFileSync(new URL(`../../examples/${name}`, import.meta.url), "utf8");
const BOARD = readExample("three_lamps/board.toml");
const PROGRAM = readExample("three_lamps/three_lamps.asm");
const LOCK = { board: readExample("lock/board.toml"), program: readExample("lock/lock.asm") };

/** Resolves to a prompt with files, and to the function `ask`, which enters lines and returns the prompt's output and errors. */
async function createPrompt({ board, program } = { board: BOARD, program: PROGRAM }, isInteractive = false, files = {}) {
  let printedLines = [];
  const session = new DebugSession(engine, { board, program });
  const launchResult = {
    session, writer: null, program: "p.asm", board: "b.toml", stopsOnEntry: true, isDebugged: true, nameOf: (name) => name,
  };
  const calls = {
    print: (words) => printedLines.push(...words.split("\n")),
    printError: (words) => printedLines.push(`refused: ${words}`),
    pause: async () => {},
    source: () => PROGRAM.replace("time  = 0x0C", "time  = 0x0D"),
    read: (name) => files[name] ?? assert.fail(`cannot read ${name}`),
    write: (name, text) => {
      files[name] = text;
    },
    files: (begin) => Object.keys(files).filter((name) => name.startsWith(begin)),
    isInteractive,
    view: null,
  };
  const prompt = new Prompt(launchResult, pageData, calls);
  await prompt.begin();
  const ask = async (...lines) => {
    printedLines = [];
    for (const line of lines) await prompt.enterLine(line);
    return printedLines;
  };
  return { prompt, session, ask };
}

test("each command has a handler, is found by its names, and has help", async () => {
  const { prompt } = await createPrompt();
  assert.deepEqual(Object.keys(prompt.handlers).sort(), COMMANDS.map(({ name }) => name).sort());
  const words = COMMANDS.flatMap(({ name, abbreviations }) => [name, ...abbreviations]);
  assert.equal(new Set(words).size, words.length);
  for (const word of words) assert.ok(findCommand(word).command, word);
  for (const { name, usage, effect } of COMMANDS) {
    assert.ok(commandHelp(name).startsWith(`${usage}: ${effect}.`), name);
    assert.ok(usage.startsWith(name === "x" ? "x[" : name), name);
  }
  assert.equal(findCommand("und").command.name, "undisplay");
  assert.equal(findCommand("re").message, "re is ambiguous: reverse-step, reverse-next, reverse-continue, release, reset");
  assert.equal(findCommand("bogus").message, "there is no command bogus; help lists all commands");
});

test("places, counts and times are parsed", async () => {
  const { session } = await createPrompt();
  const findPlace = (text) => findInstruction(text, session);
  assert.deepEqual(findPlace("wait"), { line: session.map.lineOf(0x014), address: 0x014 });
  assert.deepEqual(findPlace("WAIT + 2").address, 0x016);
  assert.deepEqual(findPlace("*0x016").address, 0x016);
  assert.deepEqual(findPlace("three_lamps.asm:1").address, 0);
  assert.deepEqual(findPlace("").address, 0);
  for (const invalidText of ["nothing", "0x1000", "999", "wait + x", "-1"]) {
    assert.throws(() => findPlace(invalidText), /place|addresses|instruction/, invalidText);
  }
  assert.deepEqual([parseCountArgument("", 9), parseCountArgument(" 7 ", 9)], [1, 7]);
  for (const invalidCount of ["0", "10", "x", "-1", "1.5"]) {
    assert.throws(() => parseCountArgument(invalidCount, 9), /a count is 1 to 9/, invalidCount);
  }
  assert.deepEqual([parseCycles("538"), parseCycles("20 ms"), parseCycles("1s")], [538, 1852, 92593]);
  assert.throws(() => parseCycles("soon"), /soon is not a time/);
});

test("several steps back end early when the user pauses", async () => {
  const { session, ask } = await createPrompt();
  await ask("step 5");
  let stepsLeft = 2;
  const { message } = await stepBackBy(session, 5, async () => stepsLeft-- > 0);
  assert.match(message, /^Back at 00. .* earlier: this instruction has not run yet\.$/);
  assert.notEqual(session.address, 0);
});

test("steps forward and back", async () => {
  const { session, ask } = await createPrompt();
  const readState = () => session.debugger.session.ask("state\n")[0].replace(/^state seq \d+/, "");
  const stateBefore = readState();
  assert.deepEqual(await ask("step 3"), ["3 instructions were done, after 4 cycles, 0.043 ms.", ">    7  004          XCH R4"]);
  assert.match((await ask("reverse-step 3"))[0], /^Back at 000 \(.*\), 4 cycles, 0\.043 ms earlier: this instruction has not run yet\.$/);
  assert.equal(readState(), stateBefore);
  assert.match((await ask("forward"))[0], /^Forward again to 004 \(.*\), 4 cycles, 0\.043 ms later\.$/);
  assert.match((await ask("forward"))[0], /^refused: Nothing was done: forward works only after going back/);
  await ask("reverse-step 3");
  await ask("step 2");
  assert.match((await ask("reverse-step 3"))[0], /^Back at 000 .* earlier, after 2 of 3 instructions: the remembered past begins here\.$/);
  assert.equal(readState(), stateBefore);
  assert.deepEqual(await ask("reverse-step 3"), ["refused: Nothing was done: the remembered past reaches no further back."]);
  await ask("until wait");
  assert.equal(session.address, 0x014);
  assert.match((await ask("backtrace"))[1], /^#1 {2}007 {2}next \+ 2, line \d+, the call$/);
  assert.match((await ask("finish"))[0], /^Returned to 009 \(next \+ 4, line \d+\)/);
  assert.match((await ask("reverse-next"))[0], /^Back at 007 \(next \+ 2, line \d+\): this instruction has not run yet\.$/);
  assert.match((await ask("forward"))[0], /^Forward again to 009/);
  await ask("reverse-next");
  assert.match((await ask("next"))[0], /^Returned to 009/);
  assert.match((await ask("back lamps")).join(), /Back at 006 .*: this instruction changes lamps from \.\.\. to \.\.\*\./);
  assert.match((await ask("forward"))[1], /^Forward again to 009/);
  assert.deepEqual(await ask("finish"), ["refused: no call is open here"]);
});

test("a step back over a return stops where the remembered past begins", async () => {
  const { ask } = await createPrompt();
  await ask("set pc = 0x01A", "step");
  assert.match((await ask("reverse-next"))[0], /^Back in the subroutine, at 01A .*: the remembered past begins in it\.$/);
});

test("going back to breakpoints, to changes of watched places, and to the previous stop", async () => {
  const { session, ask } = await createPrompt();
  const getTotal = () => session.debugger.session.count.total;
  await ask("break next if r4 = 2", "continue");
  const totalAtBreakpoint = getTotal();
  await ask("run 50", "run 60");
  const getBackMessage = async (line) => (await ask(line)).find((message) => message.startsWith("Back at"));
  assert.match(await getBackMessage("back"), /^Back at the stop at .*, 60 cycles, .* earlier\.$/);
  assert.match(await getBackMessage("reverse-continue"), /^Back at 005 \(next, line \d+\), 50 cycles, .*, at a breakpoint, when r4 = 2\.$/);
  assert.equal(getTotal(), totalAtBreakpoint);
  await ask("watch lamps");
  assert.match(await getBackMessage("rc"), /: this instruction changes lamps from \.\.\. to \.\.\*\.$/);
  assert.match(await getBackMessage("rc"),
    /^Back at 000 .*, at the beginning of the remembered past: no breakpoint was passed since then\.$/);
  assert.equal(getTotal(), 0);
  assert.deepEqual(await ask("rc"), ["refused: Nothing was done: the remembered past reaches no further back."]);
  assert.match((await ask("rc 3")).join(), /^refused: reverse-continue takes no argument/);
});

test("a run with `bench run` also ends at breakpoints", async () => {
  const { session, ask } = await createPrompt();
  const getTotal = () => session.debugger.session.count.total;
  await ask("break next if r4 = 2", "continue");
  const [cycles, hitsBefore] = [getTotal(), session.breakpoints.all[0].hits];
  await ask("back");
  assert.equal(getTotal(), 0);
  const resultLines = (await ask("bench run 100000")).filter((line) => /^(ok|Paused)/.test(line));
  assert.equal(getTotal(), cycles);
  assert.match(resultLines[0], new RegExp(`^ok \\d+ ran ${cycles} end$`));
  assert.match(resultLines[1], /^Paused at 005 \(next, line \d+\), at a breakpoint, when r4 = 2\. The line run 100000 ended there\.$/);
  assert.equal(session.breakpoints.all[0].hits, hitsBefore + 1);
  await ask("delete", 'break next if r4 = 4 log "R4 is {r4}"');
  const output = await ask("bench run 20000");
  assert.deepEqual(output.filter((line) => line.startsWith("R4")), Array(session.breakpoints.all[0].hits).fill("R4 is 4"));
  assert.match(output[output.length - 1], /^ok \d+ ran 20000 end$/);
});

test("breakpoints with conditions, hit counts and log messages; watches", async () => {
  const { ask, session } = await createPrompt();
  assert.match((await ask("break wait from 3"))[0], /^Breakpoint 1 at 014 \(wait, line \d+\)\.$/);
  assert.match((await ask("continue")).join("|"), /Paused at 014 \(wait, line \d+\), at a breakpoint, at hit 3\.\|>\*/);
  assert.match((await ask("info breakpoints"))[0], /^1 {2}line \d+ at 0x014 from 3, 3 hits$/);
  assert.deepEqual(await ask("disable 1", "delete 7"), ["refused: there is no breakpoint 7; info breakpoints shows their numbers"]);
  await ask("delete", "break next if r4 = 4 log \"R4 is {r4}\"");
  const notes = (await ask("run 100 ms")).filter((line) => line.startsWith("R4"));
  assert.deepEqual(notes, Array(session.breakpoints.all[0].hits).fill("R4 is 4"));
  assert.ok(notes.length > 1);
  const [refusal] = await ask("break next if r4 is big");
  assert.match(refusal, /^refused: /);
  assert.equal(session.breakpoints.all.length, 1, "the previous breakpoint stays");
  await ask("delete");
  assert.deepEqual(await ask("continue"), ["refused: nothing would stop it: set a breakpoint, or run for a time, as in run 100 ms"]);
  assert.deepEqual(await ask("watch r4", "info watches"),
    ["r4 is watched: continue and reverse-continue stop at its changes.", "r4, for continue and reverse-continue"]);
  assert.match((await ask("continue")).join(), /after r4 changed/);
  assert.match((await ask("watch acc"))[0], /^refused: r4 is watched/);
  assert.deepEqual(await ask("watch ram.0.0x01", "delete r4", "info watches"), ["ram.0.0x01 is watched.", "ram.0.0x01"]);
  assert.deepEqual(await ask("watch chain0.1"), ["refused: the board has no chain0.1"]);
});

test("values are shown, printed and set", async () => {
  const { ask } = await createPrompt();
  assert.deepEqual(await ask("set r4 = 0x0B", "print r4", "print P2", "set p2 time", "print p2"), ["0xB", "0xB0", "0x0C"]);
  assert.deepEqual(await ask("set R5 = r4 + 15", "print R5", "set st 0 1 2 = R5 & 3", "print st.0.1.2"), ["0xF", "0x3"]);
  assert.deepEqual(await ask("set A = 1", "set r4 16"), [
    "refused: A: no such place; the accumulator is acc (column 1)", "refused: r4 holds 0 to 15"]);
  assert.match((await ask("set r4 = foo"))[0], /^refused: foo: no such place; places are acc, .* and of lamps \(column 6\)$/);
  assert.deepEqual(await ask("back r99", "back r4 + 1", "until r4 > 1 or x = 2", "back test = 0"), [
    "refused: r99: no such place; the registers are r0 to r15 (column 1)",
    "refused: r4 + 1: a comparison is missing, as in: r4 + 1 = 4 (column 1)",
    "refused: x: no such place; places are acc, cy, pc, dcl, test, r0 to r15, p0 to p7, ram.B.S, st.B.H.K, rom1, ram0.1, lamps, and names "
    + "of the source, of Watch and of lamps (column 11)",
    "refused: no run changes test, and no trace shows it: ask for it at a breakpoint (column 1)"]);
  assert.match((await ask("set"))[0], /^refused: write `set PLACE = VALUE`, as in: set r4 = 7, .* \(column 1\)$/);
  assert.deepEqual((await ask("set pc = wait + 2", "set pc = 0")).length, 2);
  assert.deepEqual(await ask("x/2 wait"), ["  014 22 0C wait: FIM P1, 0x0C", "  016 73 16 turn: ISZ R3, 0x016"]);
  assert.deepEqual(await ask("set RAM 0 2 = 7", "x/4 ram.0.0x00", "x/4 RAM 0 0"), ["ram.0.0x00  0070", "ram.0.0x00  0070"]);
  assert.deepEqual(await ask("display r4", "next"), ["1: r4 = 0x0", "At 002 (line 5), after 2 cycles, 0.022 ms.",
    ">    5  002          SRC P0          ; the RAM chip", "1: r4 = 0x0"]);
  assert.match((await ask("list wait")).join("\n"), /wait: {3}FIM P1, time/);
  assert.match((await ask("info registers"))[0], /^acc 0 {2}cy 0 {2}pc 002/);
  assert.match((await ask("info names")).join("\n"), /^time {12} 0C$/m);
  assert.match((await ask("info"))[0], /^refused: write info and one of registers, ram, ports, keys, breakpoints, .*, locals$/);
  assert.match((await ask("bench lamps"))[0], /^lamps \.\.\.$/);
  assert.match((await ask("bench poke r16 1"))[0], /^refused: no 11/);
  assert.match((await ask("load"))[0], /The source is in ROM/);
  assert.deepEqual(await ask("print time"), ["0x0D, 13"]);
});

test("the view shows source, registers and lamps in each size, and marks changed values", async () => {
  const { prompt, ask } = await createPrompt();
  assert.match((await ask("view")).join(), /^refused: the view needs a terminal/);
  assert.match((await ask("view far")).join(), /^refused: write view, view on or view off$/);
  const viewChanges = [];
  prompt.callbacks.view = { toggle: () => "no room", setVisible: (isOn) => { viewChanges.push(isOn); return ""; } };
  assert.deepEqual(await ask("tui enable", "layout src", "view off"), []);
  assert.deepEqual([viewChanges, await ask("view")], [[true, true, false], ["refused: no room"]]);
  const leaveUnmarked = (text) => text;
  const marks = { head: leaveUnmarked, nextInstruction: (text) => `[${text}]`, changedValue: (text) => `{${text}}` };
  const view = new View(prompt);
  assert.deepEqual(chooseViewSize(24, 80), { rows: 14, columns: 79 });
  assert.deepEqual([chooseViewSize(11, 80), chooseViewSize(24, 39), chooseViewSize(undefined, undefined)], [null, null, null]);
  view.buildLines(chooseViewSize(24, 80), marks);
  await ask("until wait", "display r4", "hold 1");
  const lines = view.buildLines(chooseViewSize(24, 80), marks);
  assert.equal(lines.length, 14);
  assert.match(lines[0], /^p\.asm {2}014 \(wait, line 20\) {2}9 cycles, 0\.097 ms *$/);
  const nextLine = lines.find((line) => line.startsWith("["));
  assert.match(nextLine, /^\[> {3}20 {2}014 {2}wait: {3}FIM P1, time\] +returns 009 000 000$/);
  assert.match(lines.join("\n"), /\{acc 1\} {3}cy 0 .*\n.*\n.*P0 00 {2}P1 00\n.*\{P2 10\}/);
  assert.deepEqual(lines.slice(-3), ["lamps ..* right", "r4 = 0x1", "-".repeat(79)]);
  for (const [rows, columns] of [[12, 40], [24, 60], [50, 200]]) {
    const size = chooseViewSize(rows, columns);
    const plainLines = view.buildLines(size, { head: leaveUnmarked, nextInstruction: leaveUnmarked, changedValue: leaveUnmarked });
    assert.equal(plainLines.length, size.rows);
    assert.deepEqual(plainLines.filter((line) => line.length > size.columns), []);
    assert.match(plainLines.join("\n"), /acc 1/);
    assert.ok(plainLines.some((line) => line.startsWith(">")));
  }
});

test("keys are pressed, held and released", async () => {
  const { ask } = await createPrompt(LOCK);
  assert.match((await ask("info keys"))[0], /^1 2 3/);
  await ask("run 20 ms");
  assert.match((await ask("press 12")).join(), /Paused at/);
  assert.deepEqual((await ask("hold 1", "info keys"))[1], "down: 0.0");
  const ports = (await ask("info ports")).join();
  assert.match(ports, /^src 10 0\.10,rom 0 out [0-9A-F] in 0,rom 1 out 0 in [0-9A-F],chain 0 [01]{10},keys 0\.0$/);
  assert.deepEqual((await ask("release 1", "info keys"))[1], "none is down");
  assert.match((await ask("press Q"))[0], /^refused: the board has no key Q; it has: 1 2 3/);
  await ask("break 0x000");
  const { ask: askWithoutKeys } = await createPrompt();
  assert.deepEqual(await askWithoutKeys("press 1"), ["refused: the board has no keys"]);
});

test("at an interactive prompt, an empty line repeats the last step", async () => {
  const { ask, session } = await createPrompt(undefined, true);
  await ask("step", "", "");
  assert.equal(session.address, 0x004);
  await ask("info registers", "");
  assert.equal(session.address, 0x004);
  const scriptPrompt = await createPrompt();
  await scriptPrompt.ask("step", "", "");
  assert.equal(scriptPrompt.session.address, 0x002);
});

test("temporary breakpoints, changed conditions, and ignored hits", async () => {
  const { ask, session } = await createPrompt(LOCK);
  assert.deepEqual(await ask("tbreak scan"), ["Breakpoint 1 at 0A7 (scan, line 125)."]);
  assert.deepEqual(await ask("info breakpoints"), ["1  line 125 at 0x0A7, temporary"]);
  assert.match((await ask("continue")).join("\n"), /Breakpoint 1 was temporary, and is deleted\.\n/);
  assert.deepEqual(await ask("info breakpoints"), ["there are no breakpoints"]);
  await ask("break scan", "condition 2 r4 = 7");
  assert.equal(session.breakpoints.get(2).condition, "r4 = 7");
  assert.deepEqual(await ask("condition 2 if acc > 20"), ["refused: acc holds 0 to 15, not 20 (column 7)"]);
  assert.equal(session.breakpoints.get(2).condition, "r4 = 7");
  assert.deepEqual(await ask("cond 2"), ["Breakpoint 2 has no condition now."]);
  await ask("continue", "continue");
  assert.deepEqual(await ask("ignore 2 3"), ["Breakpoint 2 lets the next 3 hits pass."]);
  await ask("continue");
  assert.equal(session.breakpoints.get(2).hits, 6);
  assert.deepEqual(await ask("ignore $bpnum 0"), ["Breakpoint 2 stops at its next hit."]);
  for (const [line, message] of [
    ["condition", /^refused: write condition N/], ["condition 9 acc = 1", /no breakpoint 9/],
    ["ignore 2", /0 to 999,999,999, not nothing/],
    ["ignore 2 -1", /not -1/], ["commands 2 3", /commands N/], ["tbreak nothing", /not a place in the program/],
  ]) assert.match((await ask(line)).join(), message, line);
});

test("commands can run at a breakpoint's stops", async () => {
  const { ask, prompt } = await createPrompt(LOCK);
  await ask("break scan", "commands");
  assert.equal(prompt.label, "> ");
  assert.deepEqual(await ask("silent", "", "print pc", "end", "info b"), ["1  line 125 at 0x0A7", "       silent", "       print pc"]);
  assert.deepEqual((await ask("continue")).filter((line) => !line.startsWith("lamps")), ["0x0A7, line 125"]);
  // After a command that runs the machine, the remaining commands are skipped. The next stop executes its own commands.
  await ask("commands 1", "print acc", "step", "print never", "end");
  assert.equal((await ask("continue")).filter((line) => /never/.test(line)).length, 0);
  await ask("commands 1", "print pc", "bogus", "print acc", "end");
  assert.deepEqual((await ask("continue")).slice(-2), ["0x0A7, line 125", "refused: there is no command bogus; help lists all commands"]);
  await ask("commands 1", "end");
  assert.deepEqual(await ask("info b"), [(await ask("info breakpoints"))[0]]);
  await ask("commands 1");
  assert.deepEqual([prompt.discardUnfinished(), prompt.discardUnfinished()], ["the commands of breakpoint 1 are dropped", ""]);
  // The user interrupts an endless run.
  let pauseCount = 0;
  prompt.callbacks.pause = async () => {
    pauseCount += 1;
    if (pauseCount === 5) prompt.interrupt();
  };
  await ask("commands 1", "silent", "set acc = 0", "continue", "end", "continue");
  assert.ok(pauseCount >= 5);
});

test("values are printed in formats, also at each stop", async () => {
  const { ask } = await createPrompt();
  await ask("set r4 = 10", "set r5 = 3");
  for (const [line, expected] of [
    ["print/x r4", "0xA"], ["p/d r4", "10"], ["p/u r4 + r5", "13"], ["p/o r4", "012"], ["p/t r4", "0b1010"], ["p/b r5", "0b11"],
    ["p/x r5 - r4", "-0x7"], ["p/a 0x014", "0x014 <wait>"], ["p/x r4 = 10", "0x1"], ["p/x wait", "0x14"],
    ["p/q r4", "refused: q is not a format; formats are x, d, u, o, t, b, a"],
    ["p/x lamps", "refused: lamps is not a number, so it has no format"], ["p/x", "refused: write print WHAT, as in print r4"],
    ["display/t r4", "1: /t r4 = 0b1010"], ["info display", "1: /t r4"],
  ]) assert.deepEqual(await ask(line), [expected], line);
  assert.equal((await ask("step")).at(-1), "1: /t r4 = 0b1010");
});

test("further `info` commands, and gdb's abbreviations", async () => {
  const { ask } = await createPrompt(LOCK);
  await ask("until scan");
  assert.deepEqual(await ask("info line scan"), ["Line 125 is at 0x0A7 (scan)."]);
  assert.deepEqual(await ask("info line 31"), ["Line 31 is at 0x033 (digit) and 0x034."]);
  assert.deepEqual(await ask("info s"), await ask("bt"));
  assert.deepEqual(await ask("i r"), await ask("info registers"));
  assert.deepEqual(await ask("f"), ["#0  0A7  scan, line 125", ">  125  0A7  scan:   LDM 15"]);
  assert.match((await ask("info program"))[0], /^Paused at 0A7/);
  assert.match((await ask("info locals"))[0], /no local variables/);
  assert.deepEqual(await ask("info registers r4"), ["refused: info registers takes no argument"]);
  for (const words of ["si step", "ni next", "rsi reverse-step", "r run", "tb tbreak", "dis disable", "cond condition"]) {
    const [word, name] = words.split(" ");
    assert.equal(findCommand(word).command.name, name, word);
  }
});

test("breakpoints are saved to a file, and commands are read from a file", async () => {
  const files = { bad: "# a remark\n\nbreak 31\nbogus\nbreak scan\n", cut: "break 31\ncommands\nprint acc\n", itself: "source itself\n" };
  const { ask, session, prompt } = await createPrompt(LOCK, false, files);
  await ask("break 31 from 3 if r4 = 7", "disable $bpnum", "break scan log \"R4 is {r4}\"", "tbreak 0x010");
  await ask("commands", "silent", "print pc", "end", "watch ram.0.0x01", "watch r4");
  assert.deepEqual(await ask("save breakpoints saved"), ["3 breakpoints saved in saved."]);
  assert.deepEqual(files.saved.split("\n"), [
    "# Breakpoints of mcs4 debug", "tbreak 19", "commands $bpnum", "  silent", "  print pc", "end", "break 31 from 3 if r4 = 7",
    "disable $bpnum", "break 125 log \"R4 is {r4}\"", "watch ram.0.0x01", "watch r4", "",
  ]);
  const infoBefore = [await ask("info breakpoints"), await ask("info watches")];
  await ask("delete", "delete r4", "delete ram.0.0x01", "source saved");
  const maskNumbers = (lines) => lines.map((line) => line.replace(/^\d/, "N"));
  assert.deepEqual([maskNumbers(await ask("info breakpoints")), await ask("info watches")], [maskNumbers(infoBefore[0]), infoBefore[1]]);
  await ask("delete");
  assert.deepEqual((await ask("source bad")).slice(1), ["refused: bad: line 4: there is no command bogus; help lists all commands"]);
  assert.equal(session.breakpoints.all.length, 1);
  assert.match((await ask("source cut")).at(-1), /^refused: cut ends too soon; the commands of breakpoint \d+ are dropped$/);
  assert.match((await ask("source itself")).at(-1), /at most 8 deep$/);
  assert.deepEqual(await ask("save"), ["refused: write save breakpoints FILE"]);
  assert.deepEqual(await prompt.complete("source b"), [["bad"], "b"]);
  assert.deepEqual(await prompt.complete("save breakpoints sa"), [["saved"], "sa"]);
  assert.deepEqual(await prompt.complete("save b"), [["breakpoints"], "b"]);
});

test("typed lines are completed", async () => {
  const { prompt } = await createPrompt();
  assert.deepEqual(await prompt.complete("unt"), [["until "], "unt"]);
  assert.deepEqual(await prompt.complete("until wa"), [["wait"], "wa"]);
  assert.deepEqual(await prompt.complete("print not r1 = 3 an"), [["and"], "an"]);
  assert.deepEqual(await prompt.complete("info reg"), [["registers"], "reg"]);
  assert.deepEqual((await prompt.complete("bogus wa"))[1], "wa");
});
