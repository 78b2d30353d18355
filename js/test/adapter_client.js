// A debug adapter that runs in the test's own process, and a client that sends requests to it.
import assert from "node:assert/strict";
import { afterEach } from "node:test";
import { readFileSync } from "node:fs";
import { AdapterConnection } from "../core/adapter/adapter_connection.js";
import { DebugAdapter } from "../core/adapter/debug_adapter.js";
import { MessageReader, frameMessage } from "../core/server/framing.js";
import { Engine } from "../core/engine/engine.js";
import { readPageData } from "../node/page_parts.mjs";
import { pageModule } from "./page_session.js";

export const engine = new Engine(new globalThis.WebAssembly.Module(pageModule));
const readLockFile = (name) => readFileSync(new URL(`../../examples/lock/${name}`, import.meta.url), "utf8");
export const FILES = Object.fromEntries(["board.toml", "lock.asm", "mcs4.toml"].map((name) => [`/lock/${name}`, readLockFile(name)]));
export const LOCK = { program: "/lock/lock.asm" };
export const SOURCE = { path: "/lock/lock.asm" };

const TIMEOUT_MS = 20000;

/**
 * The adapters that the current test has started.
 * @type {DebugAdapter[]}
 */
const startedAdapters = [];
afterEach(async () => {
  // If the machine is still running at the end of a test, only this call stops it.
  for (const adapter of startedAdapters.splice(0)) await adapter.leave();
});

/** A stand-in for the program that serves a session file. It stores the bytes of the file and the lines that the program has received. */
export class FakeFile {
  constructor(bytes) {
    this.bytes = bytes.slice();
    this.currentBytes = bytes.slice();
    this.servedLines = [];
    this.replacementCount = 0;
    this.hasEnded = false;
  }

  async ask(lines) {
    this.servedLines.push(...lines.split("\n").slice(0, -1));
    return engine.serve(this.currentBytes, lines, this.currentBytes).answers;
  }

  async replace(bytes, lines, count, check) {
    const newBytes = bytes.slice();
    check(engine.serve(newBytes, lines, newBytes).answers);
    this.currentBytes = newBytes;
    this.replacementCount += 1;
  }

  async end() {
    this.hasEnded = true;
  }
}

/**
 * Returns an adapter and the client that sends requests to it. `files` contains the text of each file by its path, and `sessions` contains
 * the FakeFile of each session file by its path.
 */
export function startAdapter(files = FILES, sessions = {}) {
  const reader = new MessageReader();
  const messages = [];
  const exitStatuses = [];
  const connection = new AdapterConnection((bytes) => {
    messages.push(...[...reader.readMessages(bytes)].map(({ text }) => JSON.parse(text)));
  });
  const host = {
    nameOf: (name, folder) => (/^([A-Z]:)?\//.test(name) ? name : `${folder}/${name}`),
    resolveFrom: (name, sibling) => sibling.replace(/[^/]*$/, name),
    read: (name) => files[name] ?? null,
    readErrorMessage: (name) => `cannot read ${name}: there is no such file`,
    fileExists: (name) => name in files || name in sessions,
    isInside: (name) => !/outside/.test(name),
    open: async (name) => sessions[name] || Promise.reject(new Error(`${name} is in use`)),
    create: async (name) => {
      sessions[name] = new FakeFile(engine.begin());
      return sessions[name];
    },
    readSession: async (name) => {
      if (sessions[name].isInUse) throw new Error(`${name} is in use by mcs4 open (process 7)`);
      return sessions[name].currentBytes.slice();
    },
    pause: () => new Promise(setImmediate),
    end: (status) => exitStatuses.push(status),
  };
  const adapter = new DebugAdapter(connection, engine, readPageData(), host);
  startedAdapters.push(adapter);
  let seq = 0;
  const waitFor = async (matches) => {
    const deadline = performance.now() + TIMEOUT_MS;
    while (!messages.some(matches)) {
      if (performance.now() > deadline) throw new Error(`no such message arrived: ${JSON.stringify(messages.slice(-3))}`);
      await new Promise(setImmediate);
    }
    return messages.find(matches);
  };
  /** Sends a request. Returns the number of the request. */
  const sendRequest = (command, args) => {
    seq += 1;
    connection.receive(frameMessage({ seq, type: "request", command, arguments: args }));
    return seq;
  };
  const waitForResponse = (requestNumber) => waitFor((message) => message.type === "response" && message.request_seq === requestNumber);
  const getResponse = (command, args) => waitForResponse(sendRequest(command, args));
  const request = async (command, args) => {
    const response = await getResponse(command, args);
    assert.ok(response.success, response.message);
    return response.body;
  };
  const getStops = () => messages.filter(({ event }) => event === "stopped").map(({ body }) => body);
  const moveAndWait = async (command, args = { threadId: 1 }) => {
    const stopCount = getStops().length;
    await request(command, args);
    await waitFor(() => getStops().length > stopCount);
    return getStops()[stopCount];
  };
  const startSession = async (args = LOCK, configure = async () => {}) => {
    const { supportsInvalidatedEvent = true, command = "launch", client = {}, ...launchArguments } = args;
    await request("initialize", { adapterID: "mcs4", supportsInvalidatedEvent, ...client });
    await request(command, launchArguments);
    await configure();
    const stopCount = getStops().length;
    await request("configurationDone");
    if (args.stopOnEntry !== false) await waitFor(() => getStops().length > stopCount);
  };
  const getOutput = () => messages.filter(({ event }) => event === "output").map(({ body }) => body.output).join("");
  const evaluate = async (expression, context = "watch") => (await request("evaluate", { expression, context })).result;
  const getFrameLines = async () => (await request("stackTrace", { threadId: 1 })).stackFrames.map(({ line }) => line);
  return {
    adapter, connection, messages, exitStatuses, waitFor, sendRequest, waitForResponse, getResponse, request, moveAndWait, startSession,
    getOutput, evaluate, getFrameLines, getStops, sessions,
  };
}
