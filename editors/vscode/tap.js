// Parses the test results that `mcs4 test` prints in TAP version 13. The details of an error follow its `not ok` line.
"use strict";

const RESULT_LINE = /^(not )?ok \d+ - (.*)$/;
const DETAIL_LINE = /^ {2}(message|at|line|lamps|registers): "(.*)"$/;

/** Removes the escapes from the contents of a double-quoted YAML string. */
const unescapeYaml = (text) => text.replace(/\\(["\\])/g, "$1");

/**
 * Parses a location, `FILE:LINE`. The last colon is the separator, because a Windows path also has a colon.
 * @param {string} text
 */
function parseLocation(text) {
  const [, file = "", line = "1"] = /^(.*):(\d+)$/.exec(text) || [];
  return { file, line: Number(line) };
}

/**
 * Parses test results.
 * @param {string} text
 * @returns {{ name: string, hasPassed: boolean, message: string, location: { file: string, line: number } | null, details: string[] }[]}
 */
function parseResults(text) {
  const results = [];
  for (const line of text.split(/\r?\n/)) {
    const [isResult, not, name] = RESULT_LINE.exec(line) || [];
    if (isResult) results.push({ name: name.replace(/\\([\\#])/g, "$1"), hasPassed: !not, message: "", location: null, details: [] });
    const lastResult = results[results.length - 1];
    if (isResult || !lastResult || !line.startsWith("  ")) continue;
    const [, key, value] = DETAIL_LINE.exec(line) || [];
    if (key === "message") lastResult.message = unescapeYaml(value);
    else if (key === "at") lastResult.location = parseLocation(unescapeYaml(value));
    else if (key) lastResult.details.push(`${key}: ${unescapeYaml(value)}`);
    else if (!/^ {2}(---|\.\.\.)$/.test(line)) lastResult.details.push(line.slice(2));
  }
  return results;
}

module.exports = { parseResults };
