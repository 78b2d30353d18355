// Tests the creation, deletion and restoration of sessions, and the messages about them.
import assert from "node:assert/strict";
import { test } from "node:test";
import { formatUrlFragment, readUrlFragment } from "../page/session/address.js";
import { Trash, formatNames } from "../page/session/trash.js";
import { OpenSession, createSessionRecord } from "../page/session/open_session.js";
import { Persistence } from "../page/session/persistence.js";
import { MemoryStore } from "../page/session/store.js";
import { TextsController, formatLineCount } from "../page/session/texts_controller.js";

const createRecord = (name = "die") => createSessionRecord(name, Uint8Array.of(1, 2), { boardText: "# b", programText: "; p" });
const AVAILABLE_LOCKS = { acquire: async () => () => {} };

test("addresses are formatted and parsed", () => {
  for (const [kind, value] of [["session", "m1-2-x"], ["example", "traffic light"], ["link", "1.abc-_"], ["example", "50 % \u00fc"]]) {
    assert.deepEqual(readUrlFragment(formatUrlFragment(kind, value)), { kind, value });
  }
  assert.deepEqual(readUrlFragment("#example=50%"), { kind: "example", value: "50%" });
  for (const blanks of ["%20", " ", "%0A%20%0d", "\n"]) {
    assert.deepEqual(readUrlFragment(`#link=1.abc-_${blanks}`), { kind: "link", value: "1.abc-_" });
    assert.deepEqual(readUrlFragment(`#example=traffic%20light${blanks}`), { kind: "example", value: "traffic light" });
  }
  for (const address of ["", "#", "#help", "#sessions=1", "#link"]) assert.deepEqual(readUrlFragment(address), { kind: "", value: "" });
});

test("breakpoints and watches are stored in a new session, if there are any", () => {
  const texts = { boardText: "", programText: "" };
  const breakpoints = [{ line: 2, address: -1, isOn: true, condition: "r4 = 7", from: 1, note: "" }];
  const newSession = createSessionRecord("die", Uint8Array.of(1), { ...texts, breakpoints, watched: ["count = R5"] });
  assert.deepEqual([newSession.breakpoints, newSession.watched], [breakpoints, ["count = R5"]]);
  assert.deepEqual(["breakpoints", "watched"].filter((key) => key in createSessionRecord("die", Uint8Array.of(1), texts)), []);
});

test("a session of an example is not saved before it is changed", async () => {
  const store = new MemoryStore();
  const session = new OpenSession(store, createRecord(), () => {}, "die");
  assert.equal(await session.save(), "");
  assert.equal(await session.saveNow(), "");
  assert.deepEqual(await store.getAll(), []);
  assert.deepEqual([session.markChanged(), session.markChanged()], [true, false]);
  await session.save();
  assert.equal((await store.getAll()).length, 1);
});

test("several sessions can be deleted at once, and restored unchanged", async () => {
  const store = new MemoryStore();
  const records = [createRecord("one"), createRecord("two"), createRecord("three")];
  for (const storedRecord of records) await store.put(storedRecord);
  const messages = [];
  const trash = new Trash(store, AVAILABLE_LOCKS, (message) => messages.push(message));
  const [firstRecord, secondRecord] = await store.getAll();
  assert.deepEqual(await trash.deleteSessions([firstRecord, secondRecord]), [firstRecord, secondRecord]);
  assert.deepEqual((await store.getAll()).map(({ name }) => name), ["three"]);
  assert.deepEqual(trash.deletedRecords, [firstRecord, secondRecord]);
  await trash.restoreSessions([firstRecord, secondRecord]);
  await trash.restoreSessions([firstRecord]);
  assert.deepEqual((await store.getAll()).map(({ name, programText }) => name + programText), ["three; p", "one; p", "two; p"]);
  assert.deepEqual([trash.deletedRecords, messages], [[], []]);
  assert.deepEqual([formatNames([firstRecord]), formatNames([firstRecord, secondRecord])], ['"one"', "2 sessions"]);
});

test("a session that is open in another tab is not deleted; a failed restoration can be repeated", async () => {
  const store = new MemoryStore();
  const [firstRecord, secondRecord] = [createRecord("one"), createRecord("two")];
  await store.put(firstRecord);
  await store.put(secondRecord);
  const messages = [];
  const locks = { acquire: async (id) => (id === secondRecord.id ? null : () => {}) };
  const trash = new Trash(store, locks, (message) => messages.push(message));
  assert.deepEqual(await trash.deleteSessions([firstRecord, secondRecord]), [firstRecord]);
  store.put = async () => { throw new DOMException("", "QuotaExceededError"); };
  await trash.restoreSessions([firstRecord]);
  assert.deepEqual(trash.deletedRecords, [firstRecord]);
  assert.deepEqual(messages, ['The session "two" is open in another tab, so it was not deleted.',
    'The session "one" was not restored: the browser has no more space for this page.']);
});

test("the browser is asked once for persistent storage", async () => {
  let requestCount = 0;
  const persistence = new Persistence({ persist: async () => { requestCount += 1; return true; } });
  assert.equal(persistence.isGranted, false);
  await persistence.request();
  await persistence.request();
  assert.deepEqual([requestCount, persistence.isGranted], [1, true]);
  const blockedPersistence = new Persistence({ persist: async () => { throw new Error("blocked"); } });
  await blockedPersistence.request();
  assert.equal(blockedPersistence.isGranted, false);
  await new Persistence(null).request();
});

test("line counts are formatted", () => {
  assert.deepEqual(["", "a", "a\n", "a\nb", "\n"].map(formatLineCount), ["0 lines", "1 line", "1 line", "2 lines", "1 line"]);
});

/** Returns a texts controller with stand-ins for its editors. `answers` are the user's answers to its questions. */
function createController(answers, programText, disassembly) {
  const log = { questionCount: 0, notices: [] };
  const session = { record: { id: "1", name: "one", boardText: "", programText } };
  const current = { session };
  const notice = { show: (message, kind, action) => log.notices.push({ message, kind, action }) };
  const confirmDialog = { ask: async () => { log.questionCount += 1; return answers.shift(); } };
  const createEditor = (text) => ({
    text, past: [], future: [], open(_id, shownText) { this.text = shownText; },
    replaceText(newText) { this.past.push(this.text); this.text = newText; },
    undoOrRedo(direction) {
      const [from, to] = direction === "undo" ? [this.past, this.future] : [this.future, this.past];
      if (from.length === 0) return false;
      to.push(this.text);
      this.text = from.pop();
      return true;
    },
  });
  const editors = ["# b", programText, "", ""].map(createEditor);
  const controller = new TextsController(...editors, confirmDialog, notice, {
    handleEdit: () => {},
    session: () => current.session, markChanged: () => {}, save: async () => "", updateNames: () => {},
    disassembleRom: async () => disassembly, reportFailure: (error) => { throw error; },
    isProbablyNotProgram: async (text) => text.includes("prose"), handleLoadedTexts: () => {},
  });
  return { controller, log, current, session };
}

test("replacing a source needs a confirmation, and can be undone", async () => {
  const { controller, log, session } = createController([false, true], "; mine", "\tNOP\n");
  await controller.disassembleRom();
  assert.deepEqual([controller.program.text, log.notices.length], ["; mine", 0]);
  await controller.disassembleRom();
  assert.deepEqual([controller.program.text, session.record.programText, log.questionCount], ["\tNOP\n", "\tNOP\n", 2]);
  log.notices.pop().action.act();
  assert.equal(session.record.programText, "; mine");
  log.notices.pop().action.act();
  assert.equal(session.record.programText, "\tNOP\n");
  clearTimeout(controller.saveTimer);
});

test("Undo uses the editor's history if nothing was typed since, and otherwise inserts the old text", async () => {
  const { controller, log } = createController([true, true], "; mine", "\tNOP\n");
  await controller.disassembleRom();
  log.notices.pop().action.act();
  assert.deepEqual([controller.program.text, controller.program.past], ["; mine", []]);
  log.notices.pop().action.act();
  assert.deepEqual([controller.program.text, controller.program.past], ["\tNOP\n", ["; mine"]]);
  controller.program.replaceText("\tNOP\n; more");
  log.notices.pop().action.act();
  assert.deepEqual([controller.program.text, controller.program.past.length], ["; mine", 3]);
  clearTimeout(controller.saveTimer);
});

test("an empty source is replaced at once, and an identical source is not replaced", async () => {
  const { controller, log } = createController([], " \n", "\tNOP\n");
  await controller.disassembleRom();
  assert.equal(controller.program.text, "\tNOP\n");
  await controller.disassembleRom();
  assert.match(log.notices.pop().message, /already/);
  assert.equal(log.questionCount, 0);
  clearTimeout(controller.saveTimer);
});

test("a source is not restored into another session", async () => {
  const { controller, log, current, session } = createController([true], "; mine", "\tNOP\n");
  await controller.disassembleRom();
  current.session = { record: { id: "2", name: "two", boardText: "", programText: "; two" } };
  controller.show(current.session.record);
  log.notices.pop().action.act();
  assert.equal(controller.program.text, "; two");
  assert.match(log.notices.pop().message, /session "one"/);
  current.session = session;
  log.notices.pop().action.act();
  assert.equal(controller.program.text, "; mine");
  clearTimeout(controller.saveTimer);
});

const TEXTS_FROM_FILE = { board: null, program: "some prose\n", tests: null, properties: null, lines: "" };

test("a file that is perhaps not a program needs a confirmation before it replaces the source", async () => {
  const { controller, log, session } = createController([false, true], "; mine", "");
  await controller.open("notes", { ...TEXTS_FROM_FILE, isGuess: true });
  assert.deepEqual([controller.program.text, log.questionCount, log.notices.length], ["; mine", 1, 0]);
  await controller.open("notes", { ...TEXTS_FROM_FILE, isGuess: true });
  assert.deepEqual([controller.program.text, session.record.programText, log.questionCount], ["some prose\n", "some prose\n", 2]);
  clearTimeout(controller.saveTimer);
});

test("a file with a program's name, or with a valid line, needs no confirmation", async () => {
  for (const [name, texts] of [["notes.asm", TEXTS_FROM_FILE], ["notes", { ...TEXTS_FROM_FILE, program: " NOP\n", isGuess: true }]]) {
    const { controller, log } = createController([], "; mine", "");
    await controller.open(name, texts);
    assert.deepEqual([controller.program.text, log.questionCount], [texts.program, 0]);
    clearTimeout(controller.saveTimer);
  }
});

test("an opened file has one notice, which can undo all replacements", async () => {
  const { controller, log } = createController([], "; mine", "");
  await controller.open("both.txt", { ...TEXTS_FROM_FILE, board: "# new", program: "\tNOP\n" });
  assert.deepEqual([controller.board.text, controller.program.text, log.notices.length], ["# new", "\tNOP\n", 1]);
  const [{ message, kind, action }] = log.notices;
  assert.match(message, /^both\.txt is in Board and Source\./);
  assert.equal(kind, "undo");
  action.act();
  assert.deepEqual([controller.board.text, controller.program.text, log.notices.length], ["# b", "; mine", 2]);
  log.notices[1].action.act();
  assert.deepEqual([controller.board.text, controller.program.text], ["# new", "\tNOP\n"]);
  clearTimeout(controller.saveTimer);
});

test("if a file replaces nothing, its notice has no Undo", async () => {
  const { controller, log } = createController([], " \n", "");
  await controller.open("a.asm", { ...TEXTS_FROM_FILE, program: "\tNOP\n" });
  assert.deepEqual(log.notices.map(({ kind, action }) => [kind, action]), [["file", undefined]]);
  clearTimeout(controller.saveTimer);
});
