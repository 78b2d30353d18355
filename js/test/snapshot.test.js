import assert from "node:assert/strict";
import { test } from "node:test";
import { readInputs, joinLines } from "../core/bench/inputs.js";
import { SnapshotReader, buildSnapshot, snapshotQueries } from "../core/bench/snapshot.js";
import { parseItems, parseState, parsePorts, parseRegisters, stateValue, withoutCommandCount } from "../core/bench/state_line.js";

// The answer to `state` that docs/MANUAL.md shows.
const STATE = "state seq 8 acc 6 cy 0 pc 00A owed 0 dcl 0 test 1 r 1000000000000000 ret 000,001,000 src 10 banks 0.10,1.00 "
  + "roms 0.3.0,1.0.6,2.0.0 rams 0.0.0,1.0.0 chains 1100000000 keys 0.1,1.2 lamps **. breaks 003,00F watches 0.3F";
const EMPTY = "state seq 0 acc 0 cy 0 pc 000 owed 0 dcl 0 test 1 r 0000000000000000 ret 000,000,000 src 00 banks - roms - rams - chains - "
  + "keys - lamps - breaks - watches -";
const RAM = ["ram 0 chips 1", "0.0.0 2000000000000000 0000", "0.0 out 1"];

test("a board has a query for each bank of RAM, and a snapshot has only the changed values", () => {
  const queries = snapshotQueries({ banks: [{ bank: 0, chips: 1 }] });
  assert.deepEqual(queries, ["state", "ram 0"]);
  const inputs = readInputs(joinLines(queries));
  const snapshot = buildSnapshot(inputs, [STATE, ...RAM]);
  const reader = new SnapshotReader();
  assert.deepEqual(reader.readSnapshot(snapshot), { lamps: "**.", keys: ["0.1", "1.2"], test: "1" });
  const changes = reader.readStateChanges();
  assert.equal(changes.registers.counter, "00A");
  assert.deepEqual(changes.ports.keys, ["0.1", "1.2"]);
  assert.deepEqual([changes.breakpoints, changes.watches], [["003", "00F"], ["0.3F"]]);
  assert.equal(changes.ram[0].ports.get("0.0"), "1");
  for (const sameSnapshot of [snapshot, buildSnapshot(inputs, [STATE.replace("seq 8", "seq 9"), ...RAM])]) {
    assert.deepEqual([reader.readSnapshot(sameSnapshot), reader.readStateChanges()], [{}, {}]);
  }
  const nextSnapshot = buildSnapshot(inputs, [STATE.replace("lamps **.", "lamps .**"), ...RAM]);
  assert.deepEqual([reader.readSnapshot(nextSnapshot), reader.readStateChanges()], [{ lamps: ".**" }, {}]);
  assert.equal(reader.registers.accumulator, "6");
  reader.forget();
  assert.equal(Object.keys(reader.readSnapshot(nextSnapshot)).length, 3);
  assert.equal(Object.keys(reader.readStateChanges()).length, 5);
});

test("changes accumulate until they are read", () => {
  const reader = new SnapshotReader();
  const createSnapshot = (state, ...ram) => [state, ram.join("\n")];
  reader.readSnapshot(createSnapshot(STATE, ...RAM));
  reader.readStateChanges();
  const secondState = STATE.replace("keys 0.1,1.2", "keys -").replace("acc 6", "acc 7");
  assert.deepEqual(reader.readSnapshot(createSnapshot(secondState, ...RAM)), { keys: [] });
  const thirdState = STATE.replace("test 1", "test 0").replace("acc 6", "acc 8");
  assert.deepEqual(reader.readSnapshot(createSnapshot(thirdState, RAM[0], RAM[1], "0.0 out 2")), { keys: ["0.1", "1.2"], test: "0" });
  const { registers, ram, ...others } = reader.readStateChanges();
  assert.deepEqual([registers.accumulator, registers.test, ram[0].ports.get("0.0"), others], ["8", "0", "2", {}]);
  assert.deepEqual(reader.readStateChanges(), {});
});

test("single values of a state are read", () => {
  assert.deepEqual(["seq", "acc", "r", "ret", "test", "rams", "lamps", "watches"].map((key) => stateValue(STATE, key)),
    ["8", "6", "1000000000000000", "000,001,000", "1", "0.0.0,1.0.0", "**.", "0.3F"]);
  assert.deepEqual(["banks", "keys", "watches"].map((key) => parseItems(stateValue(EMPTY, key))), [[], [], []]);
  assert.throws(() => stateValue("no 90", "acc"), /unexpected answer to `state`: no 90/);
});

test("states are compared without the number of commands", () => {
  assert.equal(withoutCommandCount(STATE), withoutCommandCount(STATE.replace("seq 8", "seq 12345")));
  assert.notEqual(withoutCommandCount(STATE), withoutCommandCount(STATE.replace("acc 6", "acc 7")));
  assert.equal(withoutCommandCount(`${EMPTY}\n${RAM.join("\n")}`), `${EMPTY.slice("state seq 0 ".length)}\n${RAM.join("\n")}`);
});

test("the registers and the ports of a state are parsed", () => {
  const { registers, ports } = parseState(STATE);
  assert.deepEqual(parseRegisters(registers), {
    accumulator: "6", carry: "0", counter: "00A", owed: "0", bank: "0", test: "1", registers: [..."1000000000000000"],
    returns: ["000", "001", "000"],
  });
  assert.deepEqual(parsePorts(ports), {
    srcBytes: ["10", "0.10", "1.00"],
    roms: [{ chip: "0", out: "3", in: "0" }, { chip: "1", out: "0", in: "6" }, { chip: "2", out: "0", in: "0" }],
    chains: ["1100000000"], keys: ["0.1", "1.2"],
  });
});

test("an empty bench has an empty snapshot, and an invalid state is an error", () => {
  const reader = new SnapshotReader();
  assert.deepEqual(reader.readSnapshot([EMPTY]), { lamps: "", keys: [], test: "1" });
  const changes = reader.readStateChanges();
  assert.deepEqual([changes.breakpoints, changes.watches], [[], []]);
  assert.deepEqual(changes.ports, { srcBytes: ["00"], roms: [], chains: [], keys: [] });
  assert.throws(() => reader.readSnapshot(["no 90"]), /unexpected answer to `state`: no 90/);
});
