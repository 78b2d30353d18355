// Generates the help files that are installed with mcs4: `node command_pages.mjs FOLDER`. Writes the help for systems without Node (help/), manual
// pages (man/) and shell completions (completions/) to the folder. tools/ship calls this script.
import { mkdirSync, writeFileSync } from "node:fs";
import { join } from "node:path";
import * as say from "../words/commands.js";
import { HELP_TEXTS, groupCommands, listUsageLines, formatCommandHelp, formatMcs4Help, listOptionRows, splitParagraphs } from "./command_help.mjs";
import { COMMANDS } from "./commands/table.mjs";

const ROFF_BOLD = "\\fB";
const ROFF_PLAIN = "\\fR";

// --- manual pages ---

/** @type {Record<string, string>} */
const ROFF_ESCAPES = { "\\": "\\e", "-": "\\-", "`": "\\(ga", "^": "\\(ha", "~": "\\(ti", "'": "\\(aq" };

/**
 * Escapes text for roff. Text between back quotes becomes bold.
 * @param {string} text
 */
function escapeRoff(text) {
  const parts = text.replace(/\s+/g, " ").trim().split("`");
  const escapedParts = parts.map((part) => part.replace(/[\\\-`^~']/g, (character) => ROFF_ESCAPES[character]));
  const line = escapedParts.map((part, index) => (index % 2 === 1 ? `${ROFF_BOLD}${part}${ROFF_PLAIN}` : part)).join("");
  return line.startsWith(".") ? `\\&${line}` : line;
}

/** @type {(title: string, lines: string[]) => string[]} */
const formatSection = (title, lines) => [`.SH ${title}`, ...lines];
/** @type {(rows: string[][]) => string[]} */
const formatTaggedRows = (rows) => rows.flatMap(([tag, description]) => [".TP", `.B ${escapeRoff(tag)}`, escapeRoff(description)]);
/** @type {(lines: string[], separator: string) => string[]} */
const insertBetween = (lines, separator) => lines.flatMap((line, index) => (index > 0 ? [separator, line] : [line]));
/** @type {(text: string) => string[]} */
const formatParagraphs = (text) => insertBetween(splitParagraphs(text).map(escapeRoff), ".PP");
/** @type {(lines: string[]) => string[][]} splits each line, such as `0: all was done.`, into the exit status and its meaning */
const splitStatusLines = (lines) => lines.map((line) => [line.slice(0, 1), line.slice(2)]);

/**
 * Returns the manual page of a command.
 * @param {string} name
 */
function formatManualPage(name) {
  const { summary, text, examples, status } = HELP_TEXTS[name];
  const titles = say.MANUAL_SECTIONS;
  return [
    `.TH MCS4\\-${name.toUpperCase()} 1 "" Fethsaim "${say.MANUAL_TITLE}"`,
    ...formatSection(titles.name, [`mcs4-${name} \\- ${escapeRoff(summary)}`]),
    ...formatSection(titles.synopsis, insertBetween(listUsageLines(name).map((form) => `.B ${escapeRoff(form)}`), ".br")),
    ...formatSection(titles.description, formatParagraphs(text)),
    ...formatSection(titles.options, formatTaggedRows(listOptionRows(name))),
    ...formatSection(titles.examples, formatTaggedRows(examples)),
    ...formatSection(titles.status, formatTaggedRows(splitStatusLines(status))),
    ...formatSection(titles.seeAlso, [".BR mcs4 (1)"]),
  ].map((line) => `${line}\n`).join("");
}

/** Returns the manual page of mcs4 itself. */
function formatMcs4ManualPage() {
  const titles = say.MANUAL_SECTIONS;
  const groups = groupCommands().flatMap(({ title, commands }) => (
    [`.SS ${title}`, ...commands.flatMap(({ name, description }) => [".TP", `.BR mcs4\\-${name} (1)`, escapeRoff(description)])]));
  const [variables, files] = [say.MCS4_ENVIRONMENT.map((line) => [line.split(" ")[0], line.slice(line.indexOf(" ") + 1)]), [say.FILES_OF_MCS4]];
  return [
    `.TH MCS4 1 "" Fethsaim "${say.MANUAL_TITLE}"`,
    ...formatSection(titles.name, [`mcs4 \\- ${escapeRoff(say.MCS4_SUMMARY)}`]),
    ...formatSection(titles.synopsis, insertBetween(say.MCS4_USAGE.map(([form]) => `.B ${escapeRoff(form)}`), ".br")),
    ...formatSection(titles.description, [...formatTaggedRows(say.MCS4_USAGE), ".PP", ...formatParagraphs(say.MCS4_TEXT)]),
    ...formatSection(titles.commands, groups),
    ...formatSection(titles.status, formatTaggedRows(splitStatusLines(say.MCS4_STATUS))),
    ...formatSection(titles.environment, formatTaggedRows(variables)),
    ...formatSection(titles.files, formatTaggedRows(files)),
    ...formatSection(titles.seeAlso, [escapeRoff(say.MANUAL_REFERENCE)]),
  ].map((line) => `${line}\n`).join("");
}

// --- completions ---

/** Returns the words that can follow `mcs4`, each with its description and with the words that can follow it. */
function listCompletions() {
  const commands = Object.entries(COMMANDS).map(([name, { options, usage }]) => ({
    name,
    description: HELP_TEXTS[name].summary,
    words: [...usage.map((form) => form.split(" ")[0]).filter((word) => /^[a-z]+$/.test(word)),
      ...Object.keys(options).map((option) => `--${option}`),
      "--help"],
  }));
  const builtIns = Object.entries(say.BUILT_IN_COMPLETIONS).map(([name, description]) => (
    { name, description, words: /** @type {string[]} */ ([]) }));
  const names = [...builtIns, ...commands].map(({ name }) => name);
  return [...builtIns.map((entry) => (entry.name === "help" ? { ...entry, words: [...names, "refusals"] } : entry)), ...commands];
}

/** @type {(text: string) => string} */
const quoteForShell = (text) => `'${text.replace(/'/g, "'\\''")}'`;

/**
 * Returns the completion script for bash.
 * @param {ReturnType<typeof listCompletions>} completions
 */
function formatBashCompletion(completions) {
  const cases = completions.filter(({ words }) => words.length > 0).map(({ name, words: nextWords }) => (
    `            ${name}) words=${quoteForShell(nextWords.join(" "))} ;;`));
  return `# Completion of mcs4 for bash.
_mcs4() {
    local words= word=\${COMP_WORDS[COMP_CWORD]}
    if [ "$COMP_CWORD" -eq 1 ]; then
        words=${quoteForShell(completions.map(({ name }) => name).join(" "))}
    else
        case \${COMP_WORDS[1]} in
${cases.join("\n")}
        esac
    fi
    # Options if one is begun; the name of a file if there are no words.
    case $word in -*) ;; *) words=\${words%%--*} ;; esac
    if [ "$COMP_CWORD" -gt 2 ] && [ "\${word#-}" = "$word" ]; then words=; fi
    mapfile -t COMPREPLY < <(compgen -W "$words" -- "$word")
}
complete -o default -F _mcs4 mcs4
`;
}

/**
 * Returns the completion script for zsh.
 * @param {ReturnType<typeof listCompletions>} completions
 */
function formatZshCompletion(completions) {
  const otherCommands = completions.filter(({ name, words }) => name !== "help" && words.length > 0);
  return `#compdef mcs4
# Completion of mcs4 for zsh.
local -a commands words_here
commands=(
${completions.map(({ name, description }) => `    ${quoteForShell(`${name}:${description.replace(/:/g, "\\:")}`)}`).join("\n")}
)
if (( CURRENT == 2 )); then
    _describe command commands
    return
fi
case $words[2] in
${otherCommands.map(({ name, words: nextWords }) => `    ${name}) words_here=(${nextWords.join(" ")}) ;;`).join("\n")}
    help) _describe command commands; return ;;
esac
if [[ $PREFIX == -* ]] || (( CURRENT == 3 )); then compadd -a words_here; fi
_files
`;
}

/**
 * Returns the completion script for fish.
 * @param {ReturnType<typeof listCompletions>} completions
 */
function formatFishCompletion(completions) {
  const quoteForFish = (/** @type {string} */ text) => `'${text.replace(/\\/g, "\\\\").replace(/'/g, "\\'")}'`;
  const completeAfter = (/** @type {string} */ name) => `complete -c mcs4 -n '__fish_seen_subcommand_from ${name}'`;
  const lines = completions.flatMap(({ name, description, words: nextWords }) => [
    `complete -c mcs4 -n __fish_use_subcommand -f -a ${name} -d ${quoteForFish(description)}`,
    ...(name === "help" ? [`${completeAfter(name)} -f -a ${quoteForFish(nextWords.join(" "))}`]
      : nextWords.map((word) => `${completeAfter(name)} ${word.startsWith("--") ? `-l ${word.slice(2)}` : `-a ${word}`}`)),
  ]);
  return `# Completion of mcs4 for fish.\n${lines.map((line) => `${line}\n`).join("")}`;
}

// --- all files ---

/** Returns the names and contents of all help files. */
export function createHelpFiles() {
  const names = Object.keys(COMMANDS);
  const completions = listCompletions();
  return [
    ["help/mcs4.txt", formatMcs4Help("")], ["man/mcs4.1", formatMcs4ManualPage()],
    ...names.flatMap((name) => [[`help/${name}.txt`, formatCommandHelp(name)], [`man/mcs4-${name}.1`, formatManualPage(name)]]),
    ["completions/bash", formatBashCompletion(completions)],
    ["completions/zsh", formatZshCompletion(completions)],
    ["completions/fish", formatFishCompletion(completions)],
  ];
}

const [, , folder = "", ...extraWords] = process.argv;
if (folder === "" || folder.startsWith("-") || extraWords.length > 0) {
  process.stderr.write("usage: node js/node/command_pages.mjs FOLDER\n");
  process.exit(2);
}
for (const part of ["help", "man", "completions"]) mkdirSync(join(folder, part), { recursive: true });
for (const [name, text] of createHelpFiles()) writeFileSync(join(folder, name), text);
