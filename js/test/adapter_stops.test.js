// Tests the debug adapter's stops other than those at breakpoints: changes of a register or memory cell, and common mistakes, each with and
// without a condition.
import assert from "node:assert/strict";
import { test } from "node:test";
import { FILES, LOCK, engine, startAdapter } from "./adapter_client.js";

/**
 * Returns the first `count` changes of a register or memory cell, as the bench's `trace` reports them: the value before and after, and the
 * address of the next instruction.
 */
function changesOf(place, count) {
  const file = engine.begin();
  const program = FILES["/lock/lock.asm"].replace(/[ \t]*;.*/g, "");
  engine.serve(file, `wire\n${FILES["/lock/board.toml"].replace(/^#.*$/gm, "")}.\nasm\n${program}.\n`, file);
  // The program counter changes with each instruction, so the trace has a line for each instruction.
  const [headLine, ...lines] = engine.ask(file, `trace 20000 ${place} pc\n`).answers;
  let previous = headLine.split(" ").slice(-2)[0];
  const changes = [];
  lines.slice(0, -1).map((line) => line.split(" ")).forEach(([, , value], index) => {
    if (value !== previous) changes.push({ before: previous, after: value, next: parseInt(lines[index + 1].split(" ")[1], 16) });
    previous = value;
  });
  return changes.slice(0, count);
}

const setDataBreakpoints = async ({ request }, ...breakpoints) => (await request("setDataBreakpoints", { breakpoints })).breakpoints;
const readCounter = async ({ evaluate }) => Number((await evaluate("pc")).split(",")[0]);

test("the machine stops after each change of a register, a port, a lamp, a line and a chain", async () => {
  for (const [name, place] of [["R0", "r0"], ["acc", "acc"], ["cy", "cy"], ["lamp 0", "lamp 0"], ["chain0", "chain0"], ["ram0.0", "ram0.0"],
    ["lamps", "lamps"], ["rom0", "rom0"], ["SRC", "src"], ["rom0.1", "rom0.1"], ["chain0.2", "chain0.2"]]) {
    const client = startAdapter();
    const { startSession, request, moveAndWait } = client;
    await startSession();
    const { dataId, canPersist, accessTypes } = await request("dataBreakpointInfo", { name: place });
    assert.deepEqual([canPersist, accessTypes], [true, ["write"]], name);
    const [answer] = await setDataBreakpoints(client, { dataId });
    assert.equal(answer.verified, true, name);
    const expectedChanges = place.startsWith("lamp ") ? changesOf("ram0.0.0", 3) : changesOf(place, 6);
    assert.ok(expectedChanges.length >= 1, name);
    for (const { next } of expectedChanges) {
      const stop = await moveAndWait("continue");
      assert.deepEqual([stop.reason, stop.hitBreakpointIds], ["data breakpoint", [answer.id]], name);
      assert.deepEqual([await readCounter(client), await client.evaluate("owed")], [next, "0"], name);
      assert.match(stop.description, /, after .* changed from \S+ to \S+\.$/, name);
    }
  }
});

test("the value at each stop is the value in the bench's trace", async () => {
  const client = startAdapter();
  await client.startSession();
  await setDataBreakpoints(client, { dataId: "r0" });
  for (const { before, after } of changesOf("r0", 8)) {
    const { description } = await client.moveAndWait("continue");
    assert.ok(description.endsWith(`, after r0 changed from ${before} to ${after}.`), description);
    assert.equal(await client.evaluate("r0"), `0x${after}`);
  }
});

test("registers, ports and lamps can be watched; keys, names and the counter cannot", async () => {
  const client = startAdapter();
  const { startSession, request } = client;
  await startSession();
  const { scopes } = await request("scopes", { frameId: 1 });
  const dataIdByName = {};
  for (const { name: scope, variablesReference } of scopes) {
    const { variables } = await request("variables", { variablesReference });
    for (const { name } of variables) {
      dataIdByName[`${scope} ${name}`] = (await request("dataBreakpointInfo", { variablesReference, name })).dataId;
    }
  }
  const entries = Object.entries(dataIdByName);
  const dataIdsOf = (scope) => entries.filter(([name]) => name.startsWith(`${scope} `)).map(([, id]) => id);
  assert.deepEqual(dataIdsOf("Registers"), ["acc", "cy", null, "dcl", null, null, ...Array.from({ length: 16 }, (_, at) => `r${at}`)]);
  assert.deepEqual(dataIdsOf("Lamps"), ["lamp 0", "lamp 1", "lamp 2"]);
  assert.deepEqual(dataIdsOf("Ports").filter(Boolean), ["rom0", "rom1", "ram0.0", "chain0"]);
  assert.ok([...dataIdsOf("Keys"), ...dataIdsOf("Names"), ...dataIdsOf("RAM")].every((id) => id === null));
  const answers = await setDataBreakpoints(client, { dataId: "r4" }, { dataId: "pc" }, { dataId: "ram5.0" }, { dataId: "rm -rf" },
    { dataId: "r5", condition: "r6 ~ 3" }, { dataId: "r6", condition: "key 5 down" }, { dataId: "r7", accessType: "read" },
    { dataId: "r8", hitCondition: "often" });
  assert.deepEqual(answers.map(({ verified }) => verified), [true, false, false, false, false, false, false, false]);
  assert.ok(answers.slice(1).every(({ message }) => message.length > 10));
  const pairAnswers = await setDataBreakpoints(client,
    ...Array.from({ length: 20 }, (_, at) => ({ dataId: at < 16 ? `r${at}` : `p${at - 16}` })));
  assert.deepEqual(pairAnswers.map(({ verified }) => verified), Array.from({ length: 20 }, () => true), "a pair counts as its registers");
  const sixteenRegisters = Array.from({ length: 16 }, (_, register) => ({ dataId: `r${register}` }));
  const [lastAnswer] = (await setDataBreakpoints(client, ...sixteenRegisters, { dataId: "acc" })).slice(-1);
  assert.match(lastAnswer.message, /17 places; at most 16 are allowed/);
});

test("a data breakpoint stops only if its condition is true after the change, and only from its hit count on", async () => {
  const changes = changesOf("acc", 400);
  const expected = changes.filter(({ after }) => parseInt(after, 16) >= 8);
  const client = startAdapter();
  await client.startSession();
  await setDataBreakpoints(client, { dataId: "acc", condition: "acc >= 8" });
  for (const { after, next } of expected.slice(0, 3)) {
    await client.moveAndWait("continue");
    assert.deepEqual([await client.evaluate("acc"), await readCounter(client)], [`0x${after}`, next]);
  }
  const clientWithHitCount = startAdapter();
  await clientWithHitCount.startSession();
  await setDataBreakpoints(clientWithHitCount, { dataId: "acc", hitCondition: "4" });
  const { description } = await clientWithHitCount.moveAndWait("continue");
  assert.ok(description.includes(`from ${changes[3].before} to ${changes[3].after}`));
});

test("a data breakpoint stops steps over, console runs and reverse continue, and stays after a restart", async () => {
  const client = startAdapter();
  const { startSession, request, moveAndWait, evaluate, getStops, waitFor } = client;
  await startSession();
  await setDataBreakpoints(client, { dataId: "lamp 0" });
  for (const command of ["stepIn", "next", "next", "next"]) await moveAndWait(command);
  const overStop = await moveAndWait("next");
  assert.deepEqual([overStop.reason, /lamp 0 changed from \. to \*/.test(overStop.description)], ["data breakpoint", true]);
  assert.match(overStop.description, /; the return from the subroutine was not reached\.$/);
  await moveAndWait("restart", {});
  const endPattern = /ran \d+ end\nPaused at .*lamp 0 changed from \. to \*\. The line run 5000 ended there\.$/;
  assert.match(await evaluate("run 5000", "repl"), endPattern);
  await setDataBreakpoints(client, { dataId: "r0" });
  const forwardValues = [];
  for (let stop = 0; stop < 4; stop++) {
    await moveAndWait("continue");
    forwardValues.push(await evaluate("r0"));
  }
  const backwardValues = [];
  for (let stop = 0; stop < 4; stop++) {
    const stopCount = getStops().length;
    await request("reverseContinue", { threadId: 1 });
    await waitFor(() => getStops().length > stopCount);
    assert.equal(getStops().pop().reason, "data breakpoint");
    await evaluate("step", "repl");
    backwardValues.push(await evaluate("r0"));
    await moveAndWait("stepBack");
  }
  assert.deepEqual(backwardValues, [...forwardValues].reverse());
});

test("more RAM characters can be watched than the bench itself watches", async () => {
  const program = `${Array.from({ length: 10 }, (_, at) => ` FIM P0, ${at}\n SRC P0\n LDM ${at + 1}\n WRM\n`).join("")}end: JUN end\n`;
  const client = startAdapter({ ...FILES, "/lock/ten.asm": program });
  await client.startSession({ program: "/lock/ten.asm", board: "/lock/board.toml" });
  const breakpoints = Array.from({ length: 10 }, (_, at) => ({ dataId: `ram.0.0x0${at}` }));
  const answers = await setDataBreakpoints(client, ...breakpoints);
  assert.deepEqual(answers.filter(({ verified }) => !verified), []);
  assert.equal((await client.evaluate("watches", "repl")).split(" ").length, 9);
  for (let at = 0; at < 10; at++) {
    assert.equal((await client.moveAndWait("continue")).reason, "data breakpoint");
    assert.equal(await client.evaluate(`ram.0.${at}`), `0x${(at + 1).toString(16).toUpperCase()}`);
  }
  await setDataBreakpoints(client);
  assert.equal(await client.evaluate("watches", "repl"), "watches -");
});

/**
 * MISTAKES is a loop that makes a mistake in each iteration: RDR reads a port without inputs. R0 counts the iterations. LATE_MISTAKES is
 * the same loop after a delay of about 200,000 cycles.
 */
const MISTAKES = " FIM P1, 0\n SRC P1\nturn: INC R0\n RDR\n JUN turn\n";
const LATE_MISTAKES = ` FIM P2, 0\n FIM P3, 0\nwait: ISZ R4, wait\n ISZ R5, wait\n ISZ R6, wait\n ISZ R7, wait\n${MISTAKES}`;

test("a common mistake stops the machine if its condition is true", async () => {
  const client = startAdapter({ ...FILES, "/lock/m.asm": MISTAKES, "/lock/far.asm": LATE_MISTAKES });
  const { startSession, request, moveAndWait, evaluate, getOutput } = client;
  await startSession({ program: "/lock/m.asm", board: "/lock/board.toml" });
  const filterOptions = [{ filterId: "lines", condition: "r0 = 9" }, { filterId: "nothing" }, { filterId: "chip", condition: "r0 ~ 9" }];
  const { breakpoints } = await request("setExceptionBreakpoints", { filters: [], filterOptions });
  assert.deepEqual(breakpoints.map(({ verified }) => verified), [true, false, false]);
  assert.match(breakpoints[2].message, /^It stops every time, because of an error: .*column/);
  const stop = await moveAndWait("continue");
  assert.deepEqual([stop.reason, await evaluate("r0")], ["exception", "0x9"]);
  assert.equal(getOutput().match(/RDR/g).length, 1, "it is reported once");
  await moveAndWait("continue");
  assert.equal(await evaluate("r0"), "0x9", "after sixteen more iterations");
  await request("setExceptionBreakpoints", { filters: ["lines"] });
  await moveAndWait("continue");
  assert.equal(await evaluate("r0"), "0xA", "at the next mistake, without a condition");
  await moveAndWait("restart", {});
  await moveAndWait("continue");
  assert.equal(await evaluate("r0"), "0x1", "filters stay after a restart");
});

test("a mistake that happens late in a run is found at its instruction", async () => {
  const client = startAdapter({ ...FILES, "/lock/far.asm": LATE_MISTAKES });
  await client.startSession({ ...LOCK, program: "/lock/far.asm", board: "/lock/board.toml" });
  await client.request("setExceptionBreakpoints", { filters: ["lines"] });
  const stop = await client.moveAndWait("continue");
  assert.deepEqual([stop.reason, await client.evaluate("r0")], ["exception", "0x1"]);
});
