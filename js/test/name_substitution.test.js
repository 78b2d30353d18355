import assert from "node:assert/strict";
import { test } from "node:test";
import { replaceNames } from "../core/bench/name_substitution.js";
import { SourceMap } from "../core/machine/source_map.js";

const MAP = new SourceMap(["map lines 2 names 2", "line 1 000 0", "line 2 000 1", "name on 00C", "name go 000"], "on = 12\ngo: NOP\n");

test("names are replaced by their values in lines, but not in texts", () => {
  assert.deepEqual(replaceNames("break @go\npoke r5 @on\nasm\n; @go\n.\r\nlist @go @on\n", MAP),
    { lines: "break 0x000\npoke r5 0x00C\nasm\n; @go\n.\r\nlist 0x000 0x00C\n", message: "", line: 0 });
  assert.deepEqual(replaceNames("seq\nrun 5", null), { lines: "seq\nrun 5", message: "", line: 0 });
  assert.equal(replaceNames("x@go y\n", MAP).lines, "x@go y\n");
});

test("unknown names are rejected with a reason", () => {
  assert.deepEqual(replaceNames("seq\nbreak @going\nbreak @gone\n", MAP),
    { lines: "seq\nbreak @going\nbreak @gone\n", message: "@going: the program has no such name.", line: 2 });
  assert.equal(replaceNames("break @go\n", null).message, "@go: names are known only while the source is the same as ROM.");
  assert.equal(replaceNames("break @\n", MAP).message, "@: the program has no such name.");
});
