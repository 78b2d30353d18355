// Tests the two hosts of the engine, the WebAssembly module and the native program. Both must give the same answers to the same lines. The
// environment variable MCS4 can name a native program other than the shipped one. If no native program starts on this system, only the
// module is tested.
import { test } from "node:test";
import assert from "node:assert/strict";
import { spawnSync } from "node:child_process";
import { chmodSync, existsSync, mkdtempSync, readFileSync, readdirSync, rmSync, writeFileSync } from "node:fs";
import { tmpdir } from "node:os";
import { join } from "node:path";
import { fileURLToPath } from "node:url";
import { BenchRefusal } from "../core/bench/bench_errors.js";
/* global WebAssembly */
import { Engine } from "../core/engine/engine.js";
import { readBoard } from "../core/bench/answers.js";
import { copyWithoutStops } from "../core/engine/free_running_copy.js";
import { linesWithMembers, recordPieces } from "../core/engine/wave_stream.js";
import { runTests } from "../core/testing/test_suite.js";
import { coverageText, lcovText } from "../core/testing/coverage_text.js";
import { profileText } from "../core/testing/profile_text.js";
import { formatTestsTap } from "../core/testing/tap.js";
import { SessionTrace } from "../core/trace/session_trace.js";
import { chooseLines } from "../core/waves/line_choice.js";
import { VcdText } from "../core/waves/vcd.js";
import { NativeEngine, ProgramError } from "../node/native_engine.mjs";
import { readPageModule } from "../node/page_parts.mjs";

const root = fileURLToPath(new URL("../..", import.meta.url));
const program = process.env.MCS4 || join(root, "shipped/mcs4");
const moduleEngine = new Engine(new WebAssembly.Module(readPageModule()));
const hasProgram = spawnSync(program, [], { stdio: "ignore" }).error === undefined;
const nativeEngine = hasProgram ? new NativeEngine(program) : null;
const hosts = nativeEngine ? { module: moduleEngine, native: nativeEngine } : { module: moduleEngine };
const readExample = (name) => readFileSync(join(root, "examples", name), "utf8");

const IMPORT = `import { NativeEngine } from ${JSON.stringify(new URL("../node/native_engine.mjs", import.meta.url).href)};`;

/** Runs a JavaScript module in a separate Node process whose temporary files are in `folder`. */
function runNode(text, folder) {
  return spawnSync(process.execPath, ["--input-type=module", "-e", text], { encoding: "utf8", env: { ...process.env, TMPDIR: folder } });
}

const BOARD = 'wire\n[[rom]]\nchip = 0\nport = "0000"\n[[ram]]\nbank = 0\nchips = 1\n[[lamp]]\nline = "ram0.0.0"\n.\n';
const PROGRAM = "asm\nloop: IAC\n      WMP\n      JUN loop\n.\n";

/** Runs a test on both hosts. The results must be equal. */
function testOnBothHosts(name, run) {
  test(name, async () => {
    const results = [];
    for (const engine of Object.values(hosts)) results.push(await run(engine));
    for (const result of results.slice(1)) assert.deepEqual(result, results[0]);
  });
}

/** Returns the state of a new session after some lines. */
function stateAfter(engine, lines) {
  const state = engine.begin();
  engine.serve(state, lines, state);
  return state;
}

testOnBothHosts("a new session has no commands, and queries do not change it", (engine) => {
  const state = engine.begin();
  const { status, openingAnswer, answers } = engine.ask(state, "seq\nregs\nlamps\nseq\n");
  assert.deepEqual([status, openingAnswer, answers[0], answers[3]], [0, "session 0", "seq 0", "seq 0"]);
  assert.deepEqual(state, engine.begin());
  return answers;
});

testOnBothHosts("commands produce a new state; the previous state is unchanged", (engine) => {
  const oldState = stateAfter(engine, BOARD + PROGRAM);
  const newState = new Uint8Array(engine.size);
  const { openingAnswer, answers } = engine.serve(oldState, "run 10\nlamps\n", newState);
  assert.equal(openingAnswer, "session 2");
  assert.equal(answers[0], "ok 3 ran 10 end");
  assert.deepEqual(engine.ask(oldState, "seq\n").answers, ["seq 2"]);
  assert.deepEqual(engine.ask(newState, "seq\n").answers, ["seq 3"]);
  return [answers, engine.ask(oldState, "state\n"), engine.ask(newState, "state\n")];
});

testOnBothHosts("commands in `ask` change nothing", (engine) => {
  const state = stateAfter(engine, BOARD + PROGRAM);
  const answers = [engine.ask(state, "run 7\ntrace 1\nseq\n"), engine.ask(state, "poke acc 9\nregs\n"), engine.ask(state, "regs\nseq\n")];
  assert.equal(answers[2].answers[1], "seq 2");
  return answers;
});

testOnBothHosts("a trace continues through breakpoints, its last lines end at one, and the session is unchanged", async (engine) => {
  const state = stateAfter(engine, `${BOARD}${PROGRAM}run 3\nbreak 0x002\n`);
  const trace = new SessionTrace(engine, state, async () => {});
  const collectLines = async (pieces) => {
    const lines = [];
    for await (const piece of pieces) lines.push(...piece);
    return lines;
  };
  const nextLines = await collectLines(trace.traceNext(1200, null));
  assert.deepEqual([nextLines[0], nextLines.length], ["       0  (the second cycle)         acc 1 cy 0", 901]);
  assert.equal(nextLines[2], "       2  001 E1    WMP              acc 2 cy 0  out 0.0 2 lamps .");
  assert.deepEqual(await collectLines(trace.traceLast(1, 100000, null)), [
    "       2  001 E1    WMP              acc 2 cy 0  out 0.0 2 lamps .", "       3  002 40 00 JUN 0x000        stops before it: break",
  ]);
  assert.deepEqual(engine.ask(state, "breaks\nseq\n").answers, ["breaks 002", "seq 4"]);
  return nextLines;
});

testOnBothHosts("a VCD file is written piece by piece", async (engine) => {
  const state = copyWithoutStops(engine, stateAfter(engine, `${BOARD}${PROGRAM}`));
  const board = readBoard(engine.ask(state, "board\n").answers);
  const choice = chooseLines(board, "", false, ["ram0.0", "acc", "pc", "ram0.0[3:0]"]);
  const { lines, chosenIndices } = linesWithMembers(choice.lines, choice.chosenIndices);
  let vcdText = null;
  let file = "";
  for await (const waves of recordPieces(engine, state, { lines, program: null, cycles: 45000 }, async () => {})) {
    if (!vcdText) vcdText = new VcdText(waves, chosenIndices);
    file += (file === "" ? vcdText.formatHeader() : "") + [...vcdText.formatChanges()].join("");
  }
  file += vcdText.formatEnd();
  assert.match(file, /\$var wire 4 H ram0\.0\[3:0\] \$end\n[^]*\n#4860000\n/);
  return file;
});

testOnBothHosts("a copy is the same state, and the engine can return to any of many states", (engine) => {
  const states = [stateAfter(engine, BOARD + PROGRAM)];
  for (let number = 1; number <= 50; number++) {
    const state = states[number - 1].slice();
    engine.serve(state, `run ${number}\n`, state);
    states.push(state);
  }
  engine.prepareForRuns(states[20]);
  return [0, 50, 20, 3, 20, 49, 3, 50].map((index) => engine.ask(states[index].slice(), "state\n"));
});

testOnBothHosts("empty input, blank lines and rejected lines", (engine) => {
  const state = engine.begin();
  return [
    "", "\n\n  \n", "nonsense\nrun\nrun 0\nseq 5\n SEQ\n", `${"x".repeat(300)}\nseq\n`, "poke acc 99\n", "run 5 6 7\r\nregs\r\n",
    "\u00fc\n", "map\n x\n.\n",
  ].map((lines) => [engine.serve(state, lines, state), engine.ask(state, lines)]);
});

testOnBothHosts("`seq` within a text is a line of the text, and otherwise a query with its own answer", (engine) => {
  const state = stateAfter(engine, BOARD);
  return [
    engine.serve(state, "seq\nasm\nseq\nseq\n.\nseq\n seq \n", state), engine.ask(state, "map\nseq\n.\nseq\n"),
    engine.serve(state, "seq\nseq\nrun 3\nseq\n", state),
  ];
});

testOnBothHosts("lines with an unfinished last line or text", (engine) => {
  const state = stateAfter(engine, BOARD + PROGRAM);
  const answers = [engine.ask(state, "seq\nreg"), engine.ask(state, "run 5\nasm\n NOP\n"), engine.serve(state, "run 5\nasm\n NOP", state)];
  assert.deepEqual(answers[0].answers, ["seq 2", "no 10"]);
  assert.deepEqual(engine.ask(state, "seq\n").answers, ["seq 3"]);
  return [answers, engine.ask(state, "state\n")];
});

testOnBothHosts("lines, texts and answers that are longer than a pipe's buffer", (engine) => {
  const state = stateAfter(engine, BOARD);
  const longText = `asm\n${"; a comment that is long\n".repeat(20000)} NOP\n.\n`;
  const manyLines = "regs\nlist 0 256\nlamps\n".repeat(1500);
  const { answers } = engine.serve(state, manyLines + longText + manyLines + PROGRAM + manyLines, state);
  assert.equal(answers.length, 3 * 1500 * 258 + 2);
  assert.ok(answers.includes("no 13"));
  return [answers.length, answers.slice(-300), engine.ask(state, "state\n")];
});

testOnBothHosts("the bytes of a session file lead to the same state on each host", (engine) => {
  const bytes = engine.bytesOf(stateAfter(engine, `${BOARD + PROGRAM}run 9\nbreak 2\n`));
  assert.equal(bytes.length, moduleEngine.size);
  return Object.values(hosts).map((host) => host.ask(host.stateOf(bytes), "state\nboard\nlist 0 8\n"));
});

testOnBothHosts("a state does not share memory with the file's bytes or with copies of the state", (engine) => {
  const fileBytes = Buffer.from(engine.bytesOf(stateAfter(engine, BOARD + PROGRAM)));
  const state = engine.stateOf(fileBytes);
  const copy = state.slice();
  engine.serve(copy, "run 9\n", copy);
  fileBytes.fill(255);
  return [engine.ask(state, "state\n"), engine.ask(copy, "state\n"), state.constructor.name];
});

testOnBothHosts("bytes that are not a session file are rejected with a number", (engine) => {
  const validFile = engine.bytesOf(stateAfter(engine, BOARD));
  const damagedFile = validFile.slice().fill(255, 0, 4096);
  return [new Uint8Array(10), validFile.slice(0, 1000), damagedFile].map((bytes) => {
    try {
      return engine.ask(engine.stateOf(bytes), "seq\n");
    } catch (error) {
      assert.ok(error instanceof BenchRefusal, error);
      return error.number;
    }
  });
});

testOnBothHosts("tests, coverage and profile of examples", async (engine) => {
  const readTexts = (name) => ({ boardText: readExample(`${name}/board.toml`), programText: readExample(`${name}/${name}.asm`) });
  const reports = [];
  for (const name of ["three_lamps", "lock"]) {
    const sources = [{ name: `${name}.test`, text: readExample(`${name}/${name}.test`).replace("cycles 538", "cycles 540") }];
    const { outcomes, coverage, profile } = await runTests(engine, { ...readTexts(name), sources }, async () => true);
    const source = { name, text: readTexts(name).programText, linesBefore: 0 };
    reports.push(formatTestsTap(outcomes), coverageText(coverage, source), lcovText(coverage, source), profileText(profile));
  }
  assert.ok(reports[0].includes("not ok 2"));
  return reports;
});

if (!nativeEngine) {
  test("the native program", { skip: `${program} does not start here; MCS4 can name another one` }, () => {});
} else {
  test("a missing program, a wrong program and a program that ends are errors with a message", () => {
    const folder = mkdtempSync(join(tmpdir(), "engine_hosts-"));
    const writeProgram = (lines) => {
      const name = join(folder, "program");
      writeFileSync(name, `#!/bin/sh\n${lines}\n`);
      chmodSync(name, 0o755);
      return name;
    };
    const assertFailure = (path, expectedMessage, lines = "seq\n") => {
      const engine = new NativeEngine(path);
      try {
        assert.throws(() => engine.ask(engine.begin(), lines), ProgramError);
        assert.throws(() => engine.ask(engine.begin(), lines), ({ message }) => message === expectedMessage);
      } finally {
        engine.end();
      }
    };
    const noAnswerMessage = (name) => (
      `${join(folder, name)} does not answer; set MCS4 to the path of the program if it is not the mcs4 at the top`);
    assertFailure(join(folder, "none"), noAnswerMessage("none"));
    assertFailure(writeProgram("echo no such thing"), noAnswerMessage("program"));
    assertFailure(writeProgram("echo bad luck >&2"), `bad luck\nbad luck\n${noAnswerMessage("program")}`);
    assertFailure(writeProgram("echo session 0"), "the session has ended; the program said: nothing");
    const lateProgram = writeProgram("echo session 0; read -r line; echo seq; echo bad luck >&2");
    assertFailure(lateProgram, "the session has ended; the program said: bad luck; bad luck");
    // A child process of this program holds the pipe open for a moment. Lines in that pipe must not reach the next program.
    const holdingProgram = writeProgram("echo session 0; read -r line; echo \"$line\" >&2; exec 3<&0; sleep 1 > /dev/null 2>&1 &");
    assertFailure(holdingProgram, "the session has ended; the program said: test 0; test 0", "test 0\n");
    rmSync(folder, { recursive: true });
  });

  test("the temporary folder is private, and is removed whenever Node ends", async () => {
    const folder = mkdtempSync(join(tmpdir(), "engine_hosts-"));
    const script = (end) => `${IMPORT}
      import { readdirSync, statSync } from "node:fs";
      const engine = new NativeEngine(${JSON.stringify(program)});
      engine.ask(engine.begin(), "seq\\n");
      const [name] = readdirSync(${JSON.stringify(folder)});
      process.stdout.write((statSync(${JSON.stringify(folder)} + "/" + name).mode & 0o777).toString(8));
      ${end}`;
    for (const end of ["engine.end();", "", "process.exit(3);", "throw new Error('x');", ...["TERM", "INT", "HUP", "KILL"].map((name) => (
      `process.kill(process.pid, "SIG${name}"); setTimeout(() => {}, 10000);`))]) {
      const { stdout } = runNode(script(end), folder);
      assert.equal(stdout, "700", end);
      // After a signal, the shell removes the folder when it detects that Node has ended.
      for (let tries = 0; tries < 500 && readdirSync(folder).length > 0; tries++) await new Promise((resume) => setTimeout(resume, 10));
      assert.deepEqual(readdirSync(folder), [], end);
    }
    rmSync(folder, { recursive: true });
  });

  test("an error is reported if the temporary folder cannot be created", () => {
    const { stderr } = runNode(`${IMPORT} new NativeEngine("x");`, "/none/at/all");
    assert.match(stderr, /cannot make a folder in \/none\/at\/all; set TMPDIR to another folder/);
  });

  test("ending the engine removes its folder", () => {
    const { folder } = nativeEngine.starter;
    assert.ok(existsSync(folder));
    nativeEngine.end();
    assert.ok(!existsSync(folder));
  });
}
