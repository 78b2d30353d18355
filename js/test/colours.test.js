// Tests the syntax colouring of single lines.

import assert from "node:assert/strict";
import { test } from "node:test";
import { makeAssemblyColours } from "../page/text/assembly_colours.js";
import { colourBoardLine } from "../page/text/board_colours.js";
import { LINE_COLOURERS } from "../core/text/test_colours.js";

/** Returns the coloured ranges of a line with their style classes, as a single string. */
function describeColours(line, colours) {
  return colours(line).map(({ from, to, style }) => `${line.slice(from, to)} ${style}`).join("|");
}

test("words of a program have the colours of their kinds", () => {
  const colours = makeAssemblyColours(new Set(["ISZ"]));
  assert.equal(describeColours("loop:\tISZ R0, loop ; again", colours), "loop def|ISZ keyword|R0 atom|loop variable-2|; again comment");
  assert.equal(describeColours("", colours), "");
});

test("a board's tables, keys, values and comments are distinguished", () => {
  assert.equal(describeColours("[[rom]] # the first", colourBoardLine), "[[rom]] atom|# the first comment");
  assert.equal(describeColours('port = "00#0" # inputs', colourBoardLine), 'port property|"00#0" string|# inputs comment');
  assert.equal(describeColours("rows = [1, true]", colourBoardLine), "rows property|[ bracket|1 number|true atom|] bracket");
  assert.equal(describeColours("# a comment alone", colourBoardLine), "# a comment alone comment");
  assert.equal(describeColours('name = "open', colourBoardLine), 'name property|"open string');
});

test("lines of tests: the first word, test names, and comments, except after keys", () => {
  assert.equal(describeColours("test it is # 5", LINE_COLOURERS.tests), "test keyword|it is # 5 string");
  assert.equal(describeColours("  keys 5 #", LINE_COLOURERS.tests), "keys keyword|5 number|# variable-2");
  assert.equal(describeColours("  expect lamp 1 on # lit", LINE_COLOURERS.tests),
    "expect keyword|lamp keyword|1 number|on keyword|# lit comment");
  assert.equal(describeColours("display 5", LINE_COLOURERS.tests), "display error|5 number");
  assert.equal(describeColours("never display 1", LINE_COLOURERS.properties), "never keyword|display keyword|1 number");
});
