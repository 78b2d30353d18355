// Tests saving with a stand-in for IndexedDB that answers when the test requests it.
import assert from "node:assert/strict";
import { test } from "node:test";
import { OpenSession, createSessionRecord } from "../page/session/open_session.js";
import { MemoryStore, StoreError, Store, describeStoreError } from "../page/session/store.js";

/** A stand-in for the part of IndexedDB that the store uses. The stand-in executes transactions in order, each in its own task. */
class FakeDatabase {
  constructor() {
    this.records = new Map();
    this.log = [];
    this.putError = null;
  }

  transaction(_name, mode, options) {
    if (mode === "readwrite") assert.equal(options.durability, "strict");
    const transaction = {
      error: null, isAborted: false, pendingWrites: [],
      objectStore: () => ({
        put: (record) => {
          if (this.putError) throw this.putError;
          const copy = structuredClone(record);
          transaction.pendingWrites.push(() => this.records.set(copy.id, copy));
        },
        delete: (id) => transaction.pendingWrites.push(() => this.records.delete(id)),
        get: (id) => this.answer(() => this.records.get(id)),
        getAll: () => this.answer(() => [...this.records.values()]),
      }),
      commit: () => this.log.push("commit"),
      abort: () => { transaction.isAborted = true; },
    };
    setTimeout(() => setTimeout(() => {
      if (transaction.isAborted) {
        transaction.onabort();
        return;
      }
      transaction.pendingWrites.forEach((apply) => apply());
      if (transaction.oncomplete) transaction.oncomplete();
    }));
    return transaction;
  }

  answer(find) {
    const request = {};
    setTimeout(() => {
      request.result = find();
      request.onsuccess();
    });
    return request;
  }
}

const createRecord = () => createSessionRecord("calculator", Uint8Array.of(1, 2), { boardText: "# b", programText: "; p" });

test("a record is stored as it is at the call, before the promise resolves", async () => {
  const database = new FakeDatabase();
  const store = new Store(database, true);
  const record = createRecord();
  const promise = store.put(record);
  assert.deepEqual(database.log, ["commit"]);
  record.file = Uint8Array.of(9, 9);
  await promise;
  assert.deepEqual([...(await store.get(record.id)).file], [1, 2]);
  assert.equal((await store.getAll()).length, 1);
  await store.remove(record.id);
  assert.deepEqual(await store.getAll(), []);
});

test("without locks, a record with an outdated revision is rejected", async () => {
  const store = new Store(new FakeDatabase(), false);
  const firstRecord = createRecord();
  await store.put(firstRecord);
  const secondRecord = structuredClone(firstRecord);
  await store.put(secondRecord);
  await assert.rejects(store.put(firstRecord), new StoreError("another tab has changed or deleted this session"));
  assert.equal(firstRecord.revision, 1);
  await store.put(secondRecord);
  await store.remove(secondRecord.id);
  await assert.rejects(store.put(secondRecord), StoreError);
});

test("save calls during a write share the next write", async () => {
  const database = new FakeDatabase();
  const session = new OpenSession(new Store(database, true), createRecord(), () => {});
  const firstSave = session.save();
  await Promise.resolve();
  await Promise.resolve();
  const saves = [firstSave, session.save(), session.save(), session.save()];
  assert.deepEqual(await Promise.all(saves), ["", "", "", ""]);
  assert.equal(database.log.length, 2);
});

test("a failure of the store is reported, and the session stays unchanged", async () => {
  const database = new FakeDatabase();
  const session = new OpenSession(new Store(database, true), createRecord(), () => {});
  database.putError = new DOMException("", "QuotaExceededError");
  assert.equal(await session.save(), "the browser has no more space for this page");
  database.putError = new DOMException("", "UnknownError");
  assert.equal(await session.save(), "the browser's store failed (UnknownError)");
  database.putError = null;
  assert.equal(await session.save(), "");
  assert.deepEqual([...database.records.get(session.record.id).file], [1, 2]);
});

test("a store that does not answer is reported after a time limit", async (context) => {
  context.mock.timers.enable({ apis: ["setTimeout"] });
  const database = new FakeDatabase();
  database.transaction = () => ({ objectStore: () => ({ put: () => {}, getAll: () => ({}), get: () => ({}) }), commit: () => {} });
  const store = new Store(database, true);
  const session = new OpenSession(store, createSessionRecord("one", Uint8Array.of(1), { boardText: "", programText: "" }), () => {});
  const results = [session.save(), session.save(), store.getAll().catch(describeStoreError), store.get("one").catch(describeStoreError)];
  for (let turn = 0; turn < 5; turn++) await Promise.resolve();
  context.mock.timers.tick(10000);
  assert.deepEqual(new Set(await Promise.all(results)), new Set(["the browser's store does not answer"]));
});

test("when the user leaves the page, the session is written at once, unless the write needs an answer first", async () => {
  const database = new FakeDatabase();
  const session = new OpenSession(new Store(database, true), createRecord(), () => {});
  session.save();
  session.saveNow();
  assert.equal(database.log.length, 1);
  const databaseWithoutLocks = new FakeDatabase();
  const sessionWithoutLocks = new OpenSession(new Store(databaseWithoutLocks, false), createRecord(), () => {});
  assert.equal(await sessionWithoutLocks.save(), "");
  const commitCount = databaseWithoutLocks.log.length;
  assert.equal(await sessionWithoutLocks.saveNow(), "");
  assert.equal(databaseWithoutLocks.log.length, commitCount);
});

test("replacing the file of a session returns the old buffer", () => {
  const session = new OpenSession(new MemoryStore(), createRecord(), () => {});
  const oldBuffer = session.record.file.buffer;
  const newBuffer = Uint8Array.of(7).buffer;
  assert.equal(session.replaceFile(newBuffer), oldBuffer);
  assert.equal(session.record.file.buffer, newBuffer);
});

test("without a store, sessions are kept while the page is open", async () => {
  const store = new MemoryStore();
  const record = createRecord();
  await store.put(record);
  record.file[0] = 9;
  assert.equal((await store.get(record.id)).file[0], 1);
  assert.equal(store.isPersistent, false);
  await store.remove(record.id);
  assert.deepEqual(await store.getAll(), []);
});

test("each record has a unique id", () => {
  assert.notEqual(createRecord().id, createRecord().id);
  assert.equal(describeStoreError(undefined), "the browser's store failed (for an unknown reason)");
});
