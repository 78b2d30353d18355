// Tests the table of the page's commands, the search for commands in the palette, and the keys of commands.
import assert from "node:assert/strict";
import { readFileSync } from "node:fs";
import { test } from "node:test";
import { COMMANDS, commandById } from "../page/commands/command_table.js";
import { commandForKey, makeEditorBindings, formatKey, listenToKeys } from "../page/commands/keys.js";
import { makeKeyRows, addKeyRows } from "../page/commands/key_list.js";
import { listDestinations } from "../page/commands/palette_destinations.js";
import { searchEntries, rankEntry } from "../page/commands/palette_search.js";
import * as say from "../words/page_commands.js";

const NO_MODIFIERS = { ctrlKey: false, metaKey: false, altKey: false, shiftKey: false, defaultPrevented: false };
const keyEvent = (key, modifiers = {}) => ({ ...NO_MODIFIERS, key, ...modifiers });

/** Returns a stand-in for the objects that commands call. The stand-in records the calls. */
function createRecorder() {
  const recordedCalls = [];
  const calls = new Proxy({}, { get: (_none, name) => (...words) => {
    recordedCalls.push([name, ...words]);
    return name.startsWith("is") || name.startsWith("has") || name.startsWith("can");
  } });
  return { recordedCalls, calls };
}

test("each command has a unique id, a unique name, a group and an action", () => {
  assert.equal(new Set(COMMANDS.map(({ id }) => id)).size, COMMANDS.length);
  assert.equal(new Set(COMMANDS.map(({ label }) => label)).size, COMMANDS.length);
  for (const command of COMMANDS) {
    assert.ok(command.label && command.group in say.GROUPS, command.id);
    const { recordedCalls, calls } = createRecorder();
    command.act(calls);
    assert.equal(recordedCalls.length, 1, command.id);
    assert.equal(command.unavailableReason(calls), "", command.id);
  }
});

test("each command name belongs to a command", () => {
  const usedIds = new Set(COMMANDS.map(({ id }) => id));
  assert.deepEqual(Object.keys(say.COMMANDS).filter((id) => !usedIds.has(id)), ["time.pause"]);
});

test("the elements that commands use exist in the page", () => {
  const html = readFileSync(new URL("../../page/bench.html", import.meta.url), "utf8");
  for (const command of COMMANDS) {
    const { recordedCalls, calls } = createRecorder();
    command.act(calls);
    const [[name, id]] = recordedCalls;
    if (["clickButton", "focusField", "toggleCheckBox"].includes(name)) assert.ok(html.includes(`id="${id}"`), `${command.id}: ${id}`);
  }
});

test("a command that cannot run gives the reason", () => {
  const returnFalse = () => false;
  const calls = { canGoForward: returnFalse, isButtonAvailable: returnFalse, isTextInFront: returnFalse, hasNotices: returnFalse,
    hasKeys: returnFalse };
  const reasons = COMMANDS.map((command) => [command.id, command.unavailableReason(calls)]).filter(([, reason]) => reason);
  assert.ok(reasons.length > 30);
  assert.equal(commandById("time.redo").unavailableReason(calls), say.NOTHING_UNDONE);
  assert.equal(commandById("text.find").unavailableReason(calls), say.NEEDS_TEXT);
  assert.equal(commandById("waves.save").unavailableReason(calls), say.NOTHING_RECORDED);
  for (const [id, reason] of reasons) assert.match(reason, /^[a-z].*[a-z]$/, id);
});

test("the keys are those of VS Code and DevTools", () => {
  const ids = { F5: "time.continue", F8: "time.continue", F10: "time.over", F11: "time.into", F9: "debug.breakpoint", F1: "help.open" };
  for (const [key, id] of Object.entries(ids)) assert.equal(commandForKey(keyEvent(key)).id, id, key);
  const shiftIds = { F8: "time.lastPause", F11: "time.out", F9: "debug.condition" };
  for (const [key, id] of Object.entries(shiftIds)) assert.equal(commandForKey(keyEvent(key, { shiftKey: true })).id, id, key);
  const controlIds = { s: "project.save", S: "project.save", o: "project.open", p: "go.to", k: "settings.palette", F11: "time.stepBack" };
  for (const [key, id] of Object.entries(controlIds)) {
    assert.equal(commandForKey(keyEvent(key, { ctrlKey: true })).id, id, key);
    assert.equal(commandForKey(keyEvent(key, { metaKey: true })).id, id, key);
  }
  assert.equal(commandForKey(keyEvent("P", { ctrlKey: true, shiftKey: true })).id, "settings.palette");
});

test("other keys are left to the browser, and a handled key event is ignored", () => {
  for (const [key, modifiers] of [["a", {}], ["a", { ctrlKey: true }], ["s", {}], ["s", { ctrlKey: true, altKey: true }],
    ["F5", { ctrlKey: true }], ["F9", { defaultPrevented: true }], ["F10", { ctrlKey: true }]]) {
    assert.equal(commandForKey(keyEvent(key, modifiers)), undefined, `${key} ${JSON.stringify(modifiers)}`);
  }
});

test("no key has two commands in the same part of the page", () => {
  const idsByKey = new Map();
  for (const { id, keys, place } of COMMANDS) {
    for (const key of keys) {
      const places = place === "everywhere" ? ["everywhere", "texts", "source", "board", "tests", "properties"] : [place, "everywhere"];
      for (const scope of places) {
        assert.equal(idsByKey.get(`${key} ${scope}`), undefined, `${key} of ${id}`);
        if (scope === place) idsByKey.set(`${key} ${scope}`, id);
      }
    }
  }
});

test("while a dialog is open, command keys have no effect, not even in the browser", () => {
  const [executedIds, preventedKeys] = [[], []];
  let listener = () => {};
  let isDialogOpen = false;
  listenToKeys(({ id }) => executedIds.push(id), () => isDialogOpen, { addEventListener: (_name, callback) => { listener = callback; } });
  const press = (key, modifiers) => listener({ ...keyEvent(key, modifiers), preventDefault: () => preventedKeys.push(key) });
  press("s", { ctrlKey: true });
  press("x", {});
  isDialogOpen = true;
  press("o", { ctrlKey: true });
  assert.deepEqual([executedIds, preventedKeys], [["project.save"], ["s", "o"]]);
});

test("names of keys have the format of the table or of the editor", () => {
  assert.equal(formatKey(keyEvent("p", { metaKey: true, shiftKey: true })), "Ctrl+Shift+P");
  assert.equal(formatKey(keyEvent("[", { ctrlKey: true, altKey: true, shiftKey: true })), "Ctrl+Alt+Shift+[");
  assert.deepEqual(Object.keys(makeEditorBindings("text.foldAll", () => {})), ["Ctrl-Alt-Shift-[", "Cmd-Alt-Shift-["]);
  assert.deepEqual(Object.keys(makeEditorBindings("text.comment", () => {})), ["Ctrl-/", "Cmd-/"]);
  assert.deepEqual(Object.keys(makeEditorBindings("debug.condition", () => {})), ["Shift-F9"]);
});

const createEntry = (label, hint = "", keys = []) => ({ label, hint, disabledReason: "", keys, act: () => {} });

test("the palette finds entries by words in any order, and ranks matches at the beginning first", () => {
  const entries = [createEntry("Show Source"), createEntry("Save project"), createEntry("Step over", "Time", ["F10"]),
    createEntry("Zoom to fit")];
  const findLabels = (query) => searchEntries(entries, query).map(({ label }) => label);
  assert.deepEqual(findLabels(""), ["Show Source", "Save project", "Step over", "Zoom to fit"]);
  assert.deepEqual(findLabels("s"), ["Show Source", "Save project", "Step over"]);
  assert.deepEqual(findLabels("over st"), ["Step over"]);
  assert.deepEqual(findLabels("OVER"), ["Step over"]);
  assert.deepEqual(findLabels("time"), ["Step over"]);
  assert.deepEqual(findLabels("f10"), ["Step over"]);
  assert.deepEqual(findLabels("sou"), ["Show Source"]);
  assert.deepEqual(findLabels("xyz"), []);
  assert.ok(rankEntry(createEntry("Step over"), ["step"]) < rankEntry(createEntry("Show a step"), ["step"]));
});

test("the palette's destinations are texts, labels, typed addresses and lines, projects and examples", () => {
  const visits = [];
  const recordVisit = (kind) => (value) => visits.push(`${kind} ${value}`);
  const names = new Map([["loop", { name: "loop", value: 0x12, isLabel: true }], ["ten", { name: "ten", value: 10, isLabel: false }]]);
  const map = { names, lineOf: () => 7, findValueIgnoringCase: (name) => (names.get(name.toLowerCase()) || {}).value };
  const calls = { map: () => map, examples: () => ["clock"], projects: () => [{ id: "4", name: "mine" }], show: recordVisit("show"),
    showLine: recordVisit("line"), showAddress: recordVisit("address"), openExample: recordVisit("example"),
      openProject: recordVisit("project") };
  const openFirst = (query) => {
    const [entry] = searchEntries(listDestinations(query, calls), query);
    entry.act();
    return [entry.label, entry.hint, visits.pop()];
  };
  assert.deepEqual(openFirst(":12"), ["Line 12 of Source", "", "line 12"]);
  assert.deepEqual(openFirst("0x20"), ["Address 020", "", "address 32"]);
  assert.deepEqual(openFirst("loop"), ["loop", "line 7, 012", "address 18"]);
  assert.deepEqual(openFirst("loop + 2"), ["Address 014", "", "address 20"]);
  assert.deepEqual(openFirst("wav"), ["Waves", "text", "show waves"]);
  assert.deepEqual(openFirst("mine"), ["mine", "project", "project 4"]);
  assert.deepEqual(openFirst("clo"), ["clock", "Example", "example clock"]);
  assert.deepEqual(searchEntries(listDestinations("nowhere", calls), "nowhere"), []);
  assert.equal(listDestinations("", { ...calls, map: () => null }).some(({ label }) => label === "loop"), false);
});

test("the help section about the keyboard begins with the keys of commands", () => {
  const [keyboard, other] =
    addKeyRows([{ title: "The keyboard", tables: [{ caption: "", head: [], rows: [] }] }, { title: "Other", tables: [] }]);
  assert.deepEqual([keyboard.tables.length, other.tables.length], [2, 0]);
  assert.deepEqual(keyboard.tables[0].rows, makeKeyRows());
  assert.deepEqual(makeKeyRows()[0], ["`F5`, `F8`", "Continue"]);
  assert.equal(makeKeyRows().length, COMMANDS.filter(({ keys }) => keys.length).length);
});
