// Tests project folders that the user drops on the page: their texts, or the reason why they are rejected.
import assert from "node:assert/strict";
import { test } from "node:test";
import { folderFromFiles, getDroppedFolders, readFolder } from "../page/session/folder_files.js";
import { readFolderTexts } from "../page/session/folder_project.js";
import { readOpenedFile } from "../core/session/opened_file.js";

const PROJECT = "board = \"b/wires.toml\"\nprogram = \"main.asm\"\ntests = [\"a.test\", \"c.test\"]\nspeed = \"tenth\"\n";
const TEXTS = {
  "mcs4.toml": PROJECT, "b/wires.toml": "[[rom]]\nchip = 0\nport = \"0000\"\n", "main.asm": "NOP\n", "a.test": "test one\n  run 5\n",
  "c.test": "test two\n  run 5\n", "holiday.jpg": "\u0000",
};

/** Returns a stand-in for a browser's File object. */
function createFile(name, text) {
  return Object.assign(new globalThis.Blob([text]), { name });
}

function createFolder(texts, name = "lights") {
  return { name, files: new Map(Object.entries(texts).map(([path, text]) => [path, createFile(path.replace(/.*\//, ""), text)])) };
}

test("the texts of a project folder are read", async () => {
  const { texts, speed, message } = await readFolderTexts(createFolder(TEXTS));
  assert.deepEqual([texts.name, texts.board, texts.program, texts.tests, texts.properties], ["lights", TEXTS["b/wires.toml"], "NOP\n",
    TEXTS["a.test"], ""]);
  assert.deepEqual([speed, message], ["tenth", "The page has one text of each kind: c.test is left out."]);
  // A project can have its board and its program in one script.
  const script = "wire\n[[rom]]\nchip = 0\nport = \"0000\"\n.\nasm\nNOP\n.\n";
  const scriptProject =
    await readFolderTexts(createFolder({ "mcs4.toml": "board = \"s.txt\"\nprogram = \"s.txt\"\n", "s.txt": script }, ""));
  assert.deepEqual([scriptProject.texts.name, scriptProject.texts.program, scriptProject.speed, scriptProject.message],
    ["s", "NOP\n", "", ""]);
});

test("a folder that is not a project is rejected", async () => {
  const rejectionOf = async (texts) => {
    try {
      await readFolderTexts(createFolder(texts));
      return "";
    } catch (error) {
      return error.message;
    }
  };
  assert.equal(await rejectionOf({}), "mcs4.toml: there is no such file; it names the files of a project");
  assert.equal(await rejectionOf({ ...TEXTS, "mcs4.toml": `${PROJECT}lamps = 1\n` }),
    "mcs4.toml: line 5: a project has no key lamps; it has board, program, tests, properties and speed");
  assert.equal(await rejectionOf({ "mcs4.toml": PROJECT, "main.asm": "" }), "mcs4.toml: line 1: board: there is no file b/wires.toml");
  assert.match(await rejectionOf({ ...TEXTS, "mcs4.toml": PROJECT.replace("main.asm", "holiday.jpg") }), /not a text|zero|empty/);
  assert.equal(await rejectionOf({ ...TEXTS, "mcs4.toml": PROJECT.replace("a.test", "main.asm") }), "main.asm has no text of tests");
  assert.throws(() => readOpenedFile("mcs4.toml", new TextEncoder().encode(PROJECT)), /drop its folder on the page/);
});

test("dropped folders and files are read through the browser's interfaces", async () => {
  const createEntry = (name, content) => (typeof content === "string"
    ? { name, isFile: true, isDirectory: false, file: (callback) => callback(createFile(name, content)) }
    : { name, isFile: false, isDirectory: true, createReader: () => {
      const batches = [...Object.entries(content).map(([childName, text]) => [createEntry(childName, text)]), []];
      return { readEntries: (callback) => callback(batches.shift()) };
    } });
  const droppedEntry = createEntry("lights",
    { "mcs4.toml": PROJECT, "main.asm": "NOP\n", "b": { "wires.toml": "" }, ".git": { "HEAD": "" } });
  const { name, files } = await readFolder(droppedEntry);
  assert.deepEqual([name, [...files.keys()]], ["lights", ["mcs4.toml", "main.asm", "b/wires.toml"]]);
  const items = [{ kind: "string" }, { kind: "file", webkitGetAsEntry: () => droppedEntry },
    { kind: "file", webkitGetAsEntry: () => null }];
  assert.deepEqual(getDroppedFolders({ items }), [droppedEntry]);
  assert.deepEqual(getDroppedFolders(null), []);
  assert.equal(folderFromFiles([createFile("mcs4.toml", "")]), null);
  assert.deepEqual([...folderFromFiles([createFile("a.asm", ""), createFile("mcs4.toml", "")]).files.keys()], ["a.asm", "mcs4.toml"]);
});
