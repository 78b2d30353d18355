import assert from "node:assert/strict";
import { test } from "node:test";
import { parseGoToTarget } from "../core/machine/go_to_target.js";
import { addLineNames, labelsWidth } from "../core/machine/listing_names.js";
import { SourceMap } from "../core/machine/source_map.js";

const TEXT = "on = 12\ngo: jms  put ; far\nput:\nout: BBL 0\n\tJUN out\n";
const MAP = new SourceMap(["map lines 5 names 4", "line 1 000 0", "line 2 000 2", "line 3 002 0", "line 4 002 1", "line 5 003 2",
  "name on 00C", "name go 000", "name put 002", "name out 002"], TEXT);
const listingLine = (line) => ({ address: parseInt(line.slice(0, 3), 16), line });

test("a line has its labels, its target's label and its line of the source", () => {
  assert.deepEqual(addLineNames(listingLine("000 50 02 JMS 0x002"), MAP), { address: 0, firstAddress: "000", secondAddress: "001",
    bytes: "000 50 02", labels: "go:", instruction: "JMS put", source: "line 2: go: jms put ; far" });
  assert.deepEqual(addLineNames(listingLine("002 C0    BBL 0"), MAP),
    { address: 2, firstAddress: "002", secondAddress: "", bytes: "002 C0   ",
    labels: "put: out:", instruction: "BBL 0", source: "line 4: out: BBL 0" });
  assert.equal(addLineNames(listingLine("003 40 02 JUN 0x002"), MAP).instruction, "JUN out");
});

test("a line that is not part of the program stays unchanged", () => {
  const plainLine = { address: 5, firstAddress: "005", secondAddress: "006", bytes: "005 40 02", labels: "",
    instruction: "JUN 0x002", source: "" };
  assert.deepEqual(addLineNames(listingLine("005 40 02 JUN 0x002"), MAP), plainLine);
  assert.deepEqual(addLineNames(listingLine("005 40 02 JUN 0x002"), null), plainLine);
});

test("only jump targets are replaced by labels", () => {
  assert.equal(addLineNames(listingLine("000 20 02 FIM P0, 0x02"), MAP).instruction, "FIM P0, 0x02");
  assert.equal(addLineNames(listingLine("000 14 02 JCN 4, 0x002"), MAP).instruction, "JCN 4, put");
});

test("the column of the labels is as wide as the longest labels of an address", () => {
  assert.equal(labelsWidth(MAP), "put: out:".length);
  assert.equal(labelsWidth(null), 0);
});

test("names, and hexadecimal and decimal addresses, are accepted as destinations", () => {
  const addresses = ["put", " on ", "PUT", "put + 7", "put+0x07", "01E", "01e", "0x1E", "0x01e", "30", "100", "4095", "0", "0xFFF", "0030"];
  assert.deepEqual(addresses.map((text) => parseGoToTarget(text, MAP)), [2, 12, 2, 9, 9, 30, 30, 30, 30, 30, 256, 4095, 0, 4095, 30]
    .map((address) => ({ address, message: "" })));
});

test("invalid destinations are rejected with a reason", () => {
  for (const [text, words] of [["4096", /^4096 is not an address: the last one is FFF/], ["0x1000", /the last one/],
    ["put2", /^put2 is neither/], ["put + 4095", /^put \+ 4095 is neither/],
    ["", /^Enter where to go/], ["1E", /^1E is neither/], ["-1", /neither/], ["01E0", /neither/]]) {
    assert.match(parseGoToTarget(text, MAP).message, words);
  }
  assert.match(parseGoToTarget("put", null).message, /^put is not an address: .* Names are known only while/);
});
