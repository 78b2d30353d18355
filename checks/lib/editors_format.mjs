// Tests of checks/editors for the program formatter. The server formats random programs, alternately with spaces and with tabs. The bench must give
// the same answers to a program before and after formatting, byte for byte, and formatting twice must give the same result as formatting once. Prints
// `ok TEXT` or `failed: TEXT`.
import { execFileSync } from "node:child_process";
import { mkdirSync, readFileSync, rmSync } from "node:fs";
import { Client } from "./lsp_client.mjs";

const TOP = new URL("../..", import.meta.url).pathname;
const [folder] = process.argv.slice(2);
/** The number of valid programs, and the number of programs with errors. */
const ACCEPTED_COUNT = 500;
const REJECTED_COUNT = 60;
const PROGRAM_COUNT = ACCEPTED_COUNT + REJECTED_COUNT;
/** The number of programs in one session. */
const BATCH_SIZE = 50;
const ALL_ROMS = `wire\n${[...Array(16).keys()].map((chip) => `[[rom]]\nchip = ${chip}\nport = "0000"\n`).join("")}.\n`;
const LIST_ALL_ROM = [...Array(16).keys()].map((page) => `list ${page * 256} 256\n`).join("");

const verdict = (isRight, description) => console.log(isRight ? `ok ${description}` : `failed: ${description}`);

/** Returns `text` with the edits applied. Each edit is within one line. */
function applyEdits(text, edits) {
  const lines = text.split("\n");
  for (const { range: { start, end }, newText } of edits) {
    lines[start.line] = lines[start.line].slice(0, start.character) + newText + lines[start.line].slice(end.character);
  }
  return lines.join("\n");
}

/**
 * Returns the native program's output for the programs in `texts`. For each of them, the output has the answers to `map` and `asm`, and then the
 * contents of the whole ROM.
 */
function answersTo(texts) {
  const input = ALL_ROMS + texts.map((text) => `map\n${text}.\nasm\n${text}.\n${LIST_ALL_ROM}`).join("");
  const file = `${folder}/formatted.mcs`;
  rmSync(file, { force: true });
  return execFileSync(process.env.MCS4, ["new", file], { input, encoding: "latin1", maxBuffer: 1 << 28 });
}

/** Resolves to `text` as the server formats it. */
async function format(client, name, text, options) {
  const textDocument = { uri: `file://${folder}/${name}` };
  client.notify("textDocument/didOpen", { textDocument: { ...textDocument, languageId: "asm", version: 1, text } });
  const edits = await client.request("textDocument/formatting", { textDocument, options });
  client.notify("textDocument/didClose", { textDocument });
  return applyEdits(text, edits);
}

const programs = `${folder}/programs`;
mkdirSync(programs);
execFileSync("python3", [`${TOP}checks/lib/seeded_programs.py`, programs, String(ACCEPTED_COUNT), String(REJECTED_COUNT)]);
const client = new Client(`${TOP}mcs4`);
await client.beginSession();
let changedCount = 0;
let loadedCount = 0;
for (let start = 0; start < PROGRAM_COUNT; start += BATCH_SIZE) {
  const numbers = [...Array(Math.min(BATCH_SIZE, PROGRAM_COUNT - start)).keys()].map((index) => start + index);
  const texts = numbers.map((number) => readFileSync(`${programs}/${number}.asm`, "utf8"));
  const after = [];
  for (const [index, number] of numbers.entries()) {
    const options = { tabSize: 8, insertSpaces: number % 2 === 0 };
    const formattedOnce = await format(client, `${number}.asm`, texts[index], options);
    verdict(await format(client, `again${number}.asm`, formattedOnce, options) === formattedOnce, `program ${number}: formatting twice has the same result as once`);
    changedCount += formattedOnce === texts[index] ? 0 : 1;
    after.push(formattedOnce);
  }
  const [before, afterFormatting] = [answersTo(texts), answersTo(after)];
  loadedCount += (before.match(/^ok \d+ bytes /gm) || []).length;
  verdict(before === afterFormatting, `programs ${start} to ${start + numbers.length - 1}: the same answers, byte for byte`);
}
verdict(loadedCount === ACCEPTED_COUNT, `${loadedCount} programs were loaded`);
verdict(changedCount > PROGRAM_COUNT / 2, `${changedCount} of ${PROGRAM_COUNT} programs have another layout`);
verdict(await client.endSession() === 0, "the server's status");
