// Starts the page.

import { inflateRaw } from "pako/dist/pako_inflate.js";
import { Bench } from "../core/bench/bench_client.js";
import { startWorker } from "./bench/early_replies.js";
import { Commands, makePageFrame } from "./compose_commands.js";
import { block, button, byId, element, field, onClick } from "./ui/dom.js";
import { fromBase64 } from "../core/session/base64.js";
import { Locks } from "./session/locks.js";
import { Notice } from "./ui/notice.js";
import { Page } from "./bench_page.js";
import { readRequestedStory } from "./session/address.js";
import { makeGuide } from "./compose_session.js";
import { SPEEDS, findSpeed } from "../core/time/speeds.js";
import { withTimeout, MemoryStore, Store } from "./session/store.js";
import { makeStream, readOutput } from "./session/byte_streams.js";
import { ErrorMessages } from "../core/bench/error_messages.js";
import * as say from "../words/page.js";

/**
 * @typedef {import("../core/engine/examples.js").Example} Example
 * @typedef {import("./session/store.js").SessionStore} SessionStore
 * @typedef {import("./compose_commands.js").PageFrame} PageFrame
 * @typedef {import("../core/help/manual.js").ManualSection} ManualSection
 * @typedef {{ refusals: Record<string, string>, examples: Example[], manual: ManualSection[] }} EmbeddedData the data that page/build
 *   embeds in the page
 */

/**
 * A WebAssembly module with one `memory.fill` instruction. A browser accepts this module only if it supports bulk memory instructions,
 * which the bench's WebAssembly module needs.
 */
const BULK_MEMORY_MODULE = Uint8Array.of(0, 97, 115, 109, 1, 0, 0, 0, 1, 4, 1, 96, 0, 0, 3, 2, 1, 0, 5, 3, 1, 0, 1, 10, 13, 1, 11, 0,
  65, 0, 65, 0, 65, 0, 252, 11, 0, 11);

/** Returns the name of a feature that the page needs and this browser lacks, or "" if the browser has all of them. */
function findMissingFeature() {
  if (typeof WebAssembly !== "object" || !WebAssembly.validate(BULK_MEMORY_MODULE)) return say.BULK_MEMORY;
  if (typeof BigInt !== "function") return say.BIG_INTEGERS;
  if (typeof Worker !== "function") return "workers";
  if (typeof HTMLDialogElement !== "function") return "dialogs";
  return "";
}

/**
 * Opens the browser's session store, or creates a store in memory if the browser's store cannot be opened.
 * @param {Promise<Locks>} locksPromise
 * @returns {Promise<SessionStore>}
 */
async function openStore(locksPromise) {
  try {
    return await withTimeout(Store.open(locksPromise.then(({ areAvailable }) => areAvailable)));
  } catch {
    return new MemoryStore();
  }
}

/**
 * Returns the text of an embedded script element of the page.
 * @param {string} id
 */
function readEmbeddedText(id) {
  return (block(id).textContent || "").trim();
}

/**
 * Resolves to the decompressed bytes of an embedded script element of the page. The browser's own decompression is faster than a script's,
 * but older browsers lack it.
 * @param {string} id
 * @returns {Promise<Uint8Array>}
 */
async function unpackEmbedded(id) {
  const bytes = fromBase64(readEmbeddedText(id));
  const stream = makeStream("DecompressionStream");
  return stream ? readOutput(bytes, stream) : inflateRaw(bytes);
}

/**
 * Resolves after the browser has handled the pending events. Firefox loads a worker's script only while it handles events. A timer would
 * not help, because Firefox delays timers until the page has loaded.
 */
function yieldToEvents() {
  return new Promise((resolve) => {
    const { port1, port2 } = new MessageChannel();
    port1.onmessage = () => {
      port1.close();
      resolve(undefined);
    };
    port2.postMessage(0);
  });
}

/**
 * Returns a function that creates a bench in a new worker.
 * @param {Uint8Array[]} parts the worker's script and the WebAssembly module, which are embedded in the page
 * @param {Example[]} examples
 */
function prepareBench([script, module], examples) {
  const scriptUrl = URL.createObjectURL(new Blob([script], { type: "text/javascript" }));
  return () => new Bench(() => startWorker(scriptUrl), module.buffer, examples);
}

/** @param {Page} page */
function listenToButtons(page) {
  onClick(button("test"), () => page.lineServer.serveLines(`test ${page.snapshotView.testSwitch.isOn ? 0 : 1}\n`));
  onClick(button("from-rom"), () => page.textsController.disassembleRom());
  listenToSettings(page);
}

/** @param {Page} page */
function listenToSettings(page) {
  const speedSelect = byId("speed", HTMLSelectElement);
  const keyboardField = field("typing");
  const { preferences } = page.layout;
  const storedSpeed = SPEEDS.find(({ id }) => id === preferences.get("speed"));
  if (storedSpeed) page.runController.clock.setSpeed(storedSpeed);
  const showSettings = () => {
    speedSelect.value = page.runController.clock.speed.id;
    keyboardField.checked = page.usesKeyboard;
  };
  speedSelect.replaceChildren(...SPEEDS.map(({ id, label }) => element("option", { value: id }, label)));
  speedSelect.addEventListener("change", () => {
    preferences.set("speed", speedSelect.value);
    page.runController.setSpeed(findSpeed(speedSelect.value)).catch((error) => page.recovery.reportFailure(error));
  });
  keyboardField.addEventListener("change", () => {
    page.usesKeyboard = keyboardField.checked;
  });
  showSettings();
  // When the user returns to the page, a browser may restore old values of the fields.
  addEventListener("pageshow", showSettings);
}

/**
 * Listens to window events: the user hides or leaves the page, the page's URL changes, or an error is not caught.
 * @param {Page} page
 */
function listenToWindow(page) {
  document.addEventListener("visibilitychange", () => page.runController.setHidden(document.hidden));
  addEventListener("pagehide", () => page.currentSession.saveNow());
  addEventListener("beforeunload", (event) => {
    if (!page.store.isPersistent) event.preventDefault();
  });
  // Report uncaught errors to the user.
  addEventListener("error", (event) => {
    // Browsers report this harmless message when an observed resize causes another resize.
    if (!event.error && /^ResizeObserver loop/.test(event.message)) return;
    page.recovery.reportFailure(event.error || event.message);
  });
  addEventListener("unhandledrejection", (event) => page.recovery.reportFailure(event.reason));
  addEventListener("hashchange", () => page.sessionsController.openUrlTarget());
}

/**
 * Creates the page with its commands and its guide after the session store has been opened. The bench may still be loading. Resolves to the
 * page, the commands and the guide, and to whether the store has sessions.
 * @param {Omit<import("./bench_page.js").PageServices, "store" | "locks">} services
 * @param {PageFrame} pageFrame
 * @param {Promise<Locks>} locksPromise
 * @param {Promise<SessionStore>} storePromise
 */
async function createPage(services, pageFrame, locksPromise, storePromise) {
  const [locks, store] = await Promise.all([locksPromise, storePromise]);
  await yieldToEvents();
  const page = new Page({ ...services, store, locks });
  await yieldToEvents();
  if (!store.isPersistent) services.notice.show(say.NO_STORE, "store");
  const guide = makeGuide(page, services.manual);
  const commands = new Commands(page, guide, services.examples, pageFrame);
  page.keyPresser.listenToKeyboard();
  listenToButtons(page);
  listenToWindow(page);
  const savedSessions = await page.sessionsController.manager.savedSessions();
  return { page, guide, commands, hasSessions: savedSessions.length > 0 };
}

/** Starts to unpack the page's embedded parts, to find the locks and to open the session store. Returns the promises of the results. */
function beginLoading() {
  const unpackingPromise = Promise.all([unpackEmbedded("worker"), unpackEmbedded("module")]);
  const locksPromise = Locks.find();
  return { unpackingPromise, locksPromise, storePromise: openStore(locksPromise) };
}

/**
 * Creates the page and opens its first session.
 * @param {ReturnType<typeof beginLoading>} loading
 * @param {ErrorMessages} errorMessages
 * @param {Notice} notice
 * @param {PageFrame} pageFrame
 * @param {EmbeddedData} data
 */
async function startPage({ unpackingPromise, locksPromise, storePromise }, errorMessages, notice, pageFrame, { examples, manual }) {
  const makeBench = prepareBench(await unpackingPromise, examples);
  const bench = makeBench();
  const startPromise = bench.start();
  const services = { bench, makeBench, errorMessages, notice, examples, manual };
  // The page creates its views while the worker loads the module.
  const pagePromise = createPage(services, pageFrame, locksPromise, storePromise);
  const [{ page, guide, commands, hasSessions }] = await Promise.all([pagePromise, startPromise]);
  // A worker that dies before it has loaded the module is not replaced.
  bench.listener = page.makeBenchListener();
  const story = readRequestedStory(location.search);
  const isFirstVisit = location.hash === "" && !story && !hasSessions;
  await page.sessionsController.openFirst(story);
  if (story) guide.showStory(story, examples);
  if (isFirstVisit) commands.showFirstWelcome();
  // The startup time in milliseconds.
  document.body.dataset.ready = String(Math.round(performance.now()));
  // Create the views of the editors that no tab has shown yet.
  for (const { editor } of page.textEditors) setTimeout(() => editor.lineEditor.ensureView());
  // When the user leaves the page, Firefox 153 often does not run functions that have never run before. Therefore, save once now.
  page.currentSession.saveNow();
}

async function main() {
  const pageFrame = makePageFrame();
  const notice = new Notice();
  // The block `needs` is visible only in browsers that cannot run this script.
  block("needs").hidden = true;
  const missingFeature = findMissingFeature();
  if (missingFeature) {
    notice.show(say.featureMissing(missingFeature, readEmbeddedText("needs")));
    return;
  }
  const loading = beginLoading();
  /** @type {EmbeddedData} */
  const data = JSON.parse(new TextDecoder().decode(await unpackEmbedded("data")));
  const errorMessages = new ErrorMessages(data.refusals);
  try {
    await startPage(loading, errorMessages, notice, pageFrame, data);
  } catch (error) {
    notice.show(say.cannotStartMessage(errorMessages.errorMessage(error), readEmbeddedText("needs")));
  }
}

main();
