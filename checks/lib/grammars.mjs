// Prints the syntax highlighting of a file, so that a grammar can be compared with the page: `node grammars.mjs page|textmate|kate
// NAME.asm|board.toml`. Prints one letter for each character of the file: the kind of highlighting that the page or the grammar's editor gives it.
// The letters are `c` comment, `l` label, `k` name that `=` defines, `i` instruction, `d` directive, `r` register, `n` number, `v` other name, `t`
// table, `p` key, `s` string. A `.` stands for a character without highlighting.
import { readFileSync } from "node:fs";
import { readInstructions } from "../../js/core/help/manual.js";
import { BoardLanguage } from "../../js/core/server/board_language.js";
import { splitStatement, tokenizeLine } from "../../js/core/text/assembly.js";
import { readPageData } from "../../js/node/page_parts.mjs";

const EDITORS = new URL("../../editors/", import.meta.url);
const [format, name] = process.argv.slice(2);
const isBoard = name.endsWith(".toml");
const text = readFileSync(name, "utf8");
const lines = text.split("\n");

/** Returns the letters for a line of text, from ranges of the line with their letters. */
function lettersOf(line, ranges) {
  const letters = Array(line.length).fill(".");
  for (const { from, to, letter } of ranges) letters.fill(letter, from, to);
  return letters.map((letter, index) => (/\s/.test(line[index]) && letter !== "c" && letter !== "s" ? "." : letter)).join("");
}

const LETTERS_OF_PAGE = { comment: "c", instruction: "i", directive: "d", register: "r", number: "n", name: "v", unknown: "." };

function highlightAsPage() {
  if (isBoard) {
    const letters = { comment: "c", class: "t", property: "p", string: "s", number: "n" };
    const colours = new BoardLanguage({ createQueries: () => ({}) }, new Map(), () => "").semanticTokens({ lines, text });
    return lines.map((line, index) => lettersOf(line, colours.filter((range) => range.line === index).map((range) => ({ ...range, letter: letters[range.type] }))));
  }
  const instructions = readInstructions(readPageData().manual);
  return lines.map((line) => {
    const { defines } = splitStatement(line);
    const letterOf = (kind) => (kind === "label" ? (defines ? "k" : "l") : LETTERS_OF_PAGE[kind]);
    return lettersOf(line, tokenizeLine(line, (word) => instructions.has(word)).map((token) => ({ ...token, letter: letterOf(token.kind) })));
  });
}

// --- TextMate: the earliest match at each position; if several rules match there, the first rule.

const LETTERS_OF_TEXTMATE = [[/^comment/, "c"], [/^entity.name.function/, "l"], [/^entity.name.constant/, "k"], [/^keyword.mnemonic/, "i"],
  [/^keyword.control/, "d"], [/^variable.language/, "r"], [/^constant.numeric/, "n"], [/^variable.other/, "v"], [/^entity.name.section/, "t"],
  [/^support.type/, "p"], [/^string.quoted/, "s"], [/^/, "."]];
const letterOfScope = (scope) => LETTERS_OF_TEXTMATE.find(([pattern]) => pattern.test(scope))[1];

function highlightAsTextMate() {
  const { patterns } = JSON.parse(readFileSync(new URL(`vscode/${isBoard ? "mcs4-board" : "mcs4"}.tmLanguage.json`, EDITORS), "utf8"));
  const rules = patterns.map(({ match: source, ...rest }) => ({ ...rest, pattern: new RegExp(source, "dg") }));
  return lines.map((line) => {
    const ranges = [];
    for (let start = 0; start < line.length;) {
      let earliest = null;
      for (const rule of rules) {
        rule.pattern.lastIndex = start;
        const match = rule.pattern.exec(line);
        if (match && (!earliest || match.index < earliest.match.index)) earliest = { ...rule, match };
      }
      if (!earliest) break;
      const { match, captures = {}, name: scope } = earliest;
      if (scope) ranges.push({ from: match.index, to: match.index + match[0].length, letter: letterOfScope(scope) });
      for (const [number, capture] of Object.entries(scope ? {} : captures)) {
        const indices = match.indices[number];
        if (indices) ranges.push({ from: indices[0], to: indices[1], letter: letterOfScope(capture.name) });
      }
      start = Math.max(start + 1, match.index + match[0].length);
    }
    return lettersOf(line, ranges);
  });
}

// --- Kate: the first rule of the context that matches at each position. A rule can change the context.

const KATE_LETTERS = { Comment: "c", Face: "c", Label: "l", Constant: "k", Instruction: "i", Directive: "d", Register: "r", Number: "n", Name: "v",
  Table: "t", Key: "p", String: "s", Normal: "." };
const unescapeXml = (escaped) => escaped.replace(/&lt;/g, "<").replace(/&gt;/g, ">").replace(/&quot;/g, "\"").replace(/&amp;/g, "&");

function highlightAsKate() {
  const xml = readFileSync(new URL(`kate/${isBoard ? "mcs4-board" : "mcs4"}.xml`, EDITORS), "utf8");
  const contexts = new Map([...xml.matchAll(/<context name="(\w+)"[^>]*>([^]*?)<\/context>/g)].map(([, contextName, body]) => [contextName,
    [...body.matchAll(/<RegExpr attribute="(\w+)" context="(#?\w+)" String="([^"]*)"( insensitive="true")?\/>/g)].map(
      ([, attribute, next, pattern, isInsensitive]) => ({ attribute, next, pattern: new RegExp(unescapeXml(pattern), isInsensitive ? "yi" : "y") }))]));
  const [firstContext] = contexts.keys();
  return lines.map((line) => {
    const ranges = [];
    let context = firstContext;
    for (let start = 0; start < line.length;) {
      const rule = contexts.get(context).map((candidate) => {
        candidate.pattern.lastIndex = start;
        return { ...candidate, match: candidate.pattern.exec(line) };
      }).find(({ match }) => match);
      if (rule) ranges.push({ from: start, to: start + rule.match[0].length, letter: KATE_LETTERS[rule.attribute] });
      if (rule && !rule.next.startsWith("#")) context = rule.next;
      start += rule ? Math.max(1, rule.match[0].length) : 1;
    }
    return lettersOf(line, ranges);
  });
}

console.log({ page: highlightAsPage, textmate: highlightAsTextMate, kate: highlightAsKate }[format]().join("\n"));
