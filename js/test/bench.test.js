// Tests the page's client of the bench's worker, with a stand-in for the worker.
import assert from "node:assert/strict";
import { mock, test } from "node:test";
import { Bench } from "../core/bench/bench_client.js";
import { CancelledError, WorkerDiedError } from "../core/bench/bench_errors.js";

/** Returns a bench client and the stand-ins for its workers. The test decides what the stand-ins answer, and when. */
function createClient() {
  mock.timers.enable({ apis: ["setInterval", "setTimeout"] });
  const workers = [];
  const bench = new Bench(() => {
    const worker = {
      sent: [],
      listeners: {},
      hasEnded: false,
      postMessage: (message) => worker.sent.push(message),
      terminate: () => { worker.hasEnded = true; },
      addEventListener: (kind, listener) => { worker.listeners[kind] = listener; },
      deliver: (data) => worker.listeners.message({ data }),
      reply: (result) => worker.deliver({ kind: "reply", number: worker.sent[worker.sent.length - 1].number, result }),
    };
    workers.push(worker);
    return worker;
  }, new ArrayBuffer(8), []);
  return { bench, workers };
}

async function createStartedClient() {
  const { bench, workers } = createClient();
  const startPromise = bench.start();
  workers[0].reply(5);
  await startPromise;
  return { bench, workers, worker: workers[0] };
}

test.afterEach(() => mock.timers.reset());

test("a worker starts with the module, and its replies are matched to requests by their numbers", async () => {
  const { bench, worker } = await createStartedClient();
  assert.equal(bench.size, 5);
  const firstReply = bench.call("ask", ["seq\n"]);
  const secondReply = bench.call("ask", ["regs\n"]);
  const [firstRequest, secondRequest] = worker.sent.slice(-2);
  worker.deliver({ kind: "reply", number: secondRequest.number, result: ["acc"] });
  worker.deliver({ kind: "reply", number: firstRequest.number, error: { kind: "refusal", message: "no 90", number: 90 } });
  assert.deepEqual(await secondReply, ["acc"]);
  await assert.rejects(firstReply, /no 90/);
});

test("an early reply is accepted once, and only if no earlier request is pending", async () => {
  const { bench, worker } = await createStartedClient();
  const firstReply = bench.call("advance", [100]);
  const secondReply = bench.call("advance", [100, "0 0"]);
  const frames = [];
  firstReply.then((frame) => frames.push(frame));
  secondReply.then((frame) => frames.push(frame));
  const [firstRequest, secondRequest] = worker.sent.slice(-2);
  worker.deliver({ kind: "early", number: secondRequest.number, result: "too early" });
  worker.deliver({ kind: "reply", number: firstRequest.number, result: "first" });
  worker.deliver({ kind: "early", number: secondRequest.number, result: "second" });
  worker.deliver({ kind: "reply", number: secondRequest.number, result: "late" });
  await Promise.all([firstReply, secondReply]);
  assert.deepEqual(frames, ["first", "second"]);
});

test("long work reports its progress, and can be cancelled", async () => {
  const { bench, worker } = await createStartedClient();
  const controller = new AbortController();
  const progressReports = [];
  const reply = bench.call("serve", ["seq\n"],
    { signal: controller.signal, progress: (done, total) => progressReports.push([done, total]) });
  const { number } = worker.sent[worker.sent.length - 1];
  worker.deliver({ kind: "progress", number, done: 1, total: 4 });
  controller.abort();
  assert.deepEqual(worker.sent[worker.sent.length - 1], { kind: "cancel", number });
  worker.deliver({ kind: "reply", number, error: { kind: "cancelled", message: "", number: 0 } });
  await assert.rejects(reply, CancelledError);
  assert.deepEqual(progressReports, [[1, 4]]);
  mock.timers.tick(5000);
  assert.equal(worker.hasEnded, false);
});

test("a worker that does not react to a cancellation is ended", async () => {
  const { bench, worker } = await createStartedClient();
  let deathCount = 0;
  bench.listener.handleTermination = () => { deathCount += 1; };
  const controller = new AbortController();
  const reply = bench.call("serve", ["seq\n"], { signal: controller.signal });
  controller.abort();
  mock.timers.tick(2000);
  await assert.rejects(reply, WorkerDiedError);
  assert.deepEqual([worker.hasEnded, deathCount], [true, 1]);
});

test("an unresponsive worker is ended if a request is pending, and otherwise stays", async () => {
  const { bench, worker } = await createStartedClient();
  mock.timers.tick(60000);
  assert.equal(worker.hasEnded, false);
  const answer = bench.call("ask", ["seq\n"]);
  for (let second = 0; second < 30; second++) {
    mock.timers.tick(1000);
    worker.deliver({ kind: "pong" });
  }
  assert.equal(worker.hasEnded, false);
  mock.timers.tick(12000);
  await assert.rejects(answer, WorkerDiedError);
  assert.equal(worker.hasEnded, true);
});

test("a script error ends the worker, and another worker can be started", async () => {
  const { bench, workers, worker } = await createStartedClient();
  const answer = bench.call("ask", ["seq\n"]);
  worker.listeners.error({ preventDefault: () => {} });
  await assert.rejects(answer, WorkerDiedError);
  await assert.rejects(bench.call("ask", ["seq\n"]), WorkerDiedError);
  const startPromise = bench.start();
  workers[1].reply(5);
  await startPromise;
  // The client ignores a late message from the old worker.
  worker.deliver({ kind: "frame", frame: {} });
  const secondAnswer = bench.call("ask", ["seq\n"]);
  workers[1].reply(["seq 0"]);
  assert.deepEqual(await secondAnswer, ["seq 0"]);
});

test("buffers of the file's size return to the worker with the next request; other buffers do not", async () => {
  const { bench, worker } = await createStartedClient();
  const sentCount = worker.sent.length;
  bench.returnBuffer(new ArrayBuffer(4));
  bench.returnBuffer(new ArrayBuffer(5));
  assert.equal(worker.sent.length, sentCount);
  bench.call("ask", ["seq\n"]);
  bench.call("ask", ["seq\n"]);
  assert.deepEqual(worker.sent.slice(sentCount).map(({ spare }) => spare.map(({ byteLength }) => byteLength)), [[5], []]);
});

test("at full speed, buffers return at once", async () => {
  const { bench, worker } = await createStartedClient();
  const sentCount = worker.sent.length;
  bench.isRunning = true;
  bench.returnBuffer(new ArrayBuffer(4));
  bench.returnBuffer(new ArrayBuffer(5));
  assert.deepEqual(worker.sent.slice(sentCount).map(({ kind }) => kind), ["spare"]);
});
