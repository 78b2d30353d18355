// Tests the printout of the printing calculator, also after going back, clearing and a reload. The results of random key sequences are
// compared with calculations in this file.
import assert from "node:assert/strict";
import { readFileSync } from "node:fs";
import { test } from "node:test";
import { Face } from "../core/board/face.js";
import { printoutLines } from "../core/board/printout_lines.js";
import { BenchCalls } from "../core/engine/bench_calls.js";
import { pageModule } from "./page_session.js";

const readExample = (name) => readFileSync(new URL(`../../examples/printing_calculator/${name}`, import.meta.url), "utf8");
const EXAMPLE = {
  name: "printing calculator", board: readExample("board.toml"), program: readExample("printing_calculator.asm"), lines: "",
};
const { printer, keys } = new Face(EXAMPLE.board);
const PLACE_BY_LEGEND = new Map([...keys].map(([place, { text }]) => [text, place]));
const KEY_BY_LEGEND = new Map([...keys.values()].map(({ text, key }) => [text, key]));
const DOWN_CYCLES = 2000;
const UP_CYCLES = 14000;

/** Resolves to a session with the calculator. `printed` is the last reported printout, and `lastReport` the last report. */
async function openCalculator(file = null, storedValues = {}) {
  const calls = new BenchCalls(async () => true);
  await calls.load(pageModule, []);
  const session = { calls, printed: null };
  recordReport(session, calls.open(file || calls.createFile(EXAMPLE), storedValues.total, storedValues.reset, storedValues.printed));
  calls.watchPrinter(printer);
  return session;
}

function recordReport(session, report) {
  if (report.printed) session.printed = report.printed;
  return Object.assign(session, { lastReport: report });
}

/** Presses keys one after another, while time is running or with console lines. `names` contains the keys' names, separated by blanks. */
async function pressKeys(session, names, usesLines = false) {
  for (const name of names.split(" ")) {
    if (usesLines) {
      const place = PLACE_BY_LEGEND.get(name);
      recordReport(session, await session.calls.serve(`press ${place}\nrun ${DOWN_CYCLES}\nrelease ${place}\nrun ${UP_CYCLES}\n`));
    } else {
      session.calls.press(KEY_BY_LEGEND.get(name));
      recordReport(session, session.calls.advance(4000));
      session.calls.release(KEY_BY_LEGEND.get(name));
      recordReport(session, session.calls.advance(UP_CYCLES));
    }
  }
}

const printedLinesOf = ({ printed }) => printoutLines(printed ? printed.codes.map(([, code]) => code) : [], printer.words).slice(0, -1);

test("printed codes become lines", () => {
  assert.deepEqual(printoutLines([1, 2, 10, 15, 3], printer.words), ["12+", "3"]);
  assert.deepEqual(printoutLines([0, 1, 2], ["CE", "a_b"]), ["CEa b?"]);
  assert.deepEqual(printoutLines(Array.from({ length: 30 }, () => 7), printer.words), ["7".repeat(24), "7".repeat(6)]);
});

test("the printout has the keys and the results", async () => {
  const session = await openCalculator();
  await pressKeys(session, "1 2 + 3 0 =");
  assert.deepEqual(printedLinesOf(session), ["12+", "30=", "42"]);
  await pressKeys(session, "- 5 00 = C 7 *", true);
  assert.deepEqual(printedLinesOf(session), ["12+", "30=", "42", "42-", "500=", "-458", "C", "7*"]);
});

test("going back removes printed lines, going forward restores them, and new lines replace them", async () => {
  const session = await openCalculator();
  await pressKeys(session, "4 + 5 =", true);
  const linesBefore = printedLinesOf(session);
  assert.deepEqual(linesBefore, ["4+", "5=", "9"]);
  recordReport(session, await session.calls.goBack({ kind: "stop" }));
  assert.deepEqual(printedLinesOf(session), ["4+"]);
  recordReport(session, session.calls.goForward());
  assert.deepEqual(printedLinesOf(session), linesBefore);
  recordReport(session, await session.calls.goBack({ kind: "stop" }));
  await pressKeys(session, "1 =", true);
  assert.deepEqual(printedLinesOf(session), ["4+", "51=", "55"]);
});

test("a long series of lines prints, and cancelled lines print nothing", async () => {
  let shouldContinue = true;
  const calls = new BenchCalls(async () => shouldContinue);
  await calls.load(pageModule, []);
  const session = recordReport({ calls, printed: null }, calls.open(calls.createFile(EXAMPLE)));
  calls.watchPrinter(printer);
  const runLines = "run 100\n".repeat(3000);
  const [ninePlace, equalsPlace] = [PLACE_BY_LEGEND.get("9"), PLACE_BY_LEGEND.get("=")];
  const lines = `press ${ninePlace}\nrun 2000\nrelease ${ninePlace}\n${runLines}press ${equalsPlace}\n${runLines}`;
  recordReport(session, await calls.serve(lines));
  assert.deepEqual(printedLinesOf(session), ["9=", "9"]);
  shouldContinue = false;
  await assert.rejects(calls.serve(lines));
  recordReport(session, calls.advance(100));
  assert.deepEqual(printedLinesOf(session), ["9=", "9"]);
});

test("a reload keeps the printout; clearing it and another printer remove it", async () => {
  const session = await openCalculator();
  await pressKeys(session, "8 =", true);
  const { total, reset, file } = session.lastReport;
  const reloadedSession = await openCalculator(new Uint8Array(file), { total, reset, printed: session.printed });
  assert.deepEqual(printedLinesOf(reloadedSession), ["8=", "8"]);
  await pressKeys(reloadedSession, "+", true);
  assert.deepEqual(printedLinesOf(reloadedSession), ["8=", "8", "8+"]);
  reloadedSession.calls.clearPrintout();
  await pressKeys(reloadedSession, "1 =", true);
  assert.deepEqual(printedLinesOf(reloadedSession), ["1=", "9"]);
  reloadedSession.calls.watchPrinter({ strobe: "rom0.1", port: "ram0.2" });
  reloadedSession.calls.watchPrinter(printer);
  recordReport(reloadedSession, reloadedSession.calls.advance(100));
  assert.deepEqual(printedLinesOf(reloadedSession), []);
});

/** Returns the expected printout of the calculator, calculated with integers of any size. */
function computePrintout(names) {
  const lines = [];
  let [value, operand, operator, isNewNumber, hasOverflowed] = [0n, 0n, "", false, false];
  const formatValue = () => (hasOverflowed ? "---------" : String(value));
  const compute = () => {
    if (operator) value = { "+": operand + value, "-": operand - value, "*": operand * value }[operator];
    hasOverflowed = value > 99999999n || value < -99999999n;
  };
  for (const name of names) {
    if (name === "C") {
      [value, operator, isNewNumber, hasOverflowed] = [0n, "", true, false];
      lines.push("C");
    } else if (hasOverflowed) continue;
    else if (/\d/.test(name)) {
      for (const digit of name) {
        if (isNewNumber) value = 0n;
        isNewNumber = false;
        if (String(value).length < 8) value = value * 10n + BigInt(digit);
      }
    } else {
      lines.push(formatValue() + name);
      if (name === "=" || !isNewNumber || !operator) {
        compute();
        if (name === "=" || hasOverflowed) lines.push(formatValue());
        operand = value;
      }
      operator = name === "=" ? "" : name;
      isNewNumber = true;
    }
  }
  return lines;
}

test("random key sequences print the results of exact arithmetic", async () => {
  let seed = 1971;
  const randomBelow = (limit) => {
    seed = (seed * 16807) % 2147483647;
    return seed % limit;
  };
  const session = await openCalculator();
  for (let round = 0; round < 12; round++) {
    const names = ["C"];
    for (let index = 0; index < 24; index++) {
      const kind = randomBelow(10);
      names.push(kind < 6 ? String(randomBelow(10)) : kind === 6 ? "00" : "+-*="[randomBelow(4)]);
    }
    session.calls.clearPrintout();
    await pressKeys(session, names.join(" "), true);
    assert.deepEqual(printedLinesOf(session), computePrintout(names), names.join(" "));
  }
});
